"""The inputs: one function per case, which makes the lines of an event script at a size (1, 4, 16)."""

from collections import namedtuple

# The input's lines, what its units of work are, and how many of them there are; how many of its first lines only prepare, so that what they
# cost alone is no part of the units' cost; and how many of its transactions are given up.
Work = namedtuple('Work', 'lines what units prepare aborts', defaults=[0, 0])

LEVELS = 32
RUNS_PER_SIZE = 64
MOVES = 16
CHUNK = 16300
CHUNKS_PER_SIZE = 16
COMMITS = 500
FILLED_AT_ONCE = 1024
CLIENTS = 8
DIRECTORIES = 16
FILES_IN_EACH = 250
ROUNDS = 4
QUEUED_FILES = 250
RUNNING = 4
RECORDS_OF_A_RUN = 100
PARTS = 256
BYTES_OF_A_PART = 256


def script(name, statements):
    return [f'script {name} {{', *statements, '}']


def run(name, client='laptop'):
    return f'run {client} {name} abort'


def transactions(size):
    """Many small transactions on a tree that stays small."""
    runs = 250 * size
    init = ['mkdir /d', 'write /d/n "one\\n"']
    small = ['write /d/n "two\\n"', 'cat /d/n', 'write /d/m "three\\n"', 'cat /d/m']
    lines = ['client laptop', *script('init', init), *script('small', small), run('init')]
    return Work(lines + [run('small')] * runs, 'transactions', runs)


def tree(size):
    """A tree of 32 levels with files in each, and then transactions at its top and at its bottom."""
    lines = ['client laptop']
    path = ''
    acts = 0
    for level in range(LEVELS):
        path += f'/level{level}'
        rows = [f'mkdir {path}'] + [f'write {path}/f{i} "in {level}\\n"' for i in range(8 * size)]
        lines += script(f'make{level}', rows) + [run(f'make{level}')]
        acts += len(rows)
    use = ['write /level0/f1 "top\\n"', 'cat /level0/f1', f'write {path}/f1 "bottom\\n"', f'cat {path}/f1']
    runs = RUNS_PER_SIZE * size
    lines += script('use', use) + [run('use')] * runs
    return Work(lines, 'acts', acts + len(use) * runs)


def loops(size):
    """One script whose loop goes over more and more files, with 4 acts in each turn; at 16x it does 4,000 acts."""
    files = (250 * size - 1) // 4
    init = ['mkdir /d', 'mkdir /e'] + [f'write /d/f{i} "{i}\\n"' for i in range(files)]
    turn = ['if same /d/$x /d/f0 {', 'echo $x', '} else {', 'read v /d/$x', '}', 'write /e/$x $v$v', 'append /e/$x "+"']
    acts = 250 * size
    rest = acts - (1 + 4 * files)
    body = ['for x in /d {', *turn, '}'] + ['echo rest'] * rest
    lines = ['client laptop', *script('init', init), *script('all', body), run('init'), run('all')]
    return Work(lines, 'acts', len(init) + acts)


def moves(size):
    """A directory with more and more files is moved there and back, and its names are printed."""
    files = 250 * size
    init = ['mkdir /a'] + [f'write /a/f{i} x' for i in range(files)]
    lines = ['client laptop', *script('init', init), *script('move', ['mv /a /b', 'ls /b', 'mv /b /a'])]
    return Work(lines + [run('init')] + [run('move')] * (MOVES // 2), 'rows moved', files * MOVES)


def filler(number):
    """The lines of one script of a little less than 16 KiB, half of them comments."""
    file = f'/d/f{number}'
    block = ['# Comments and empty lines cost a look at their bytes.',
             f'if file {file} {{',
             f'append {file} "some words in quotes, with \\"escapes\\" and a newline\\n"',
             '} else {', f'write {file} left$x"right"', '}',
             '    # A line may begin with blanks, and only the first script of this input is run.', '']
    per_block = sum(len(line) + 1 for line in block)
    return ['mkdir /d'] + block * ((CHUNK - 40) // per_block)


def text(size):
    """An input that is mostly script text and comments: 256 KiB, 1 MiB, and a little less than 4 MiB."""
    lines = ['client laptop', '# Comments stand between the events too.', '']
    for number in range(CHUNKS_PER_SIZE * size):
        lines += script(f's{number}', filler(number))
    lines.append(run('s0'))
    return Work(lines, 'bytes', sum(len(line) + 1 for line in lines))


def journal(size):
    """Small transactions, after 64 KiB, 2 MiB and 64 MiB that are on the server's disk already."""
    writes = 8 * round(size ** 2.5)
    at_once = min(writes, FILLED_AT_ONCE)
    fill = ['set a x'] + ['set a $a$a'] * 13 + ['write /f $a'] * at_once
    lines = ['client laptop', *script('fill', fill), *script('small', ['write /n "two\\n"', 'cat /n'])]
    lines += [run('fill')] * (writes // at_once)
    return Work(lines + [run('small')] * COMMITS, 'commits', COMMITS, len(lines))


def clients(size):
    """Eight clients that hold more and more of a tree of 4,000 files, and refresh and run in turn."""
    names = [f'c{i}' for i in range(CLIENTS)]
    init = ['mkdir /made'] + [f'mkdir /made/d{d}' for d in range(DIRECTORIES)]
    init += [f'write /made/d{d}/f{i} x' for d in range(DIRECTORIES) for i in range(FILES_IN_EACH)]
    lines = [f'client {name}' for name in names] + script('init', init) + script('rename', ['mv /made /all'])
    lines += script('small', ['append /all/d0/f0 "+"', 'cat /all/d0/f1'])
    # The first one knows all that it has made, until another one renames it: then each holds only what it hoards.
    lines += [run('init', names[0]), run('rename', names[1]), f'refresh {names[0]}']
    lines += [f'hoard {name} /all/d{d}' for name in names for d in range(size)]
    turns = [line for name in names for line in (f'refresh {name}', run('small', name))] * ROUNDS
    # The root, /all and the directories, and the files. Each turn passes over all that is held and all that is there.
    others = 2 + DIRECTORIES
    held = others + size * FILES_IN_EACH
    there = others + DIRECTORIES * FILES_IN_EACH
    return Work(lines + turns, 'rows', len(turns) * (held + there), len(lines))


def steps(size):
    """One transaction of more and more acts, each a single step, on a tree of as many files."""
    acts = 250 * size
    init = ['mkdir /d'] + [f'write /d/f{i} x' for i in range(acts)]
    lines = ['client laptop', *script('init', init), *script('work', [f'append /d/f{i} "+"' for i in range(acts)])]
    lines += [run('init'), 'begin laptop work abort']
    return Work(lines + ['step laptop'] * acts, 'steps', acts, len(lines))


def acts(size):
    """One transaction of more and more acts, each a single step, on a tree that stays small."""
    number = 250 * size
    lines = ['client laptop', *script('init', ['write /f x']), *script('work', ['write /f y'] * number)]
    lines += [run('init'), 'begin laptop work abort']
    return Work(lines + ['step laptop'] * number, 'steps', number, len(lines))


def running(size):
    """Four transactions of more and more acts, stepped in turn, on a tree that stays small."""
    number = 250 * size
    lines = ['client laptop', *script('init', ['write /f x']), *script('work', ['write /f y'] * number), run('init')]
    lines += ['begin laptop work abort'] * RUNNING
    # The first transaction was that of `init`.
    turn = [f'step laptop 1 {2 + place}' for place in range(RUNNING)]
    return Work(lines + turn * number, 'steps', RUNNING * number, len(lines))


def restarts(size):
    """A client that crashes and comes back with more and more records on its disk."""
    runs = 10 * size
    # Besides the acts, the refresh, the begin, the end and the verdict of a run are a record each.
    lines = ['client laptop', *script('work', ['write /f x'] * (RECORDS_OF_A_RUN - 4)), *[run('work')] * runs]
    return Work(lines + ['crash laptop', 'restart laptop'], 'records', runs * RECORDS_OF_A_RUN, len(lines))


def queue(size):
    """More and more transactions that wait at a client without the server, and are then submitted one after the other."""
    items = QUEUED_FILES * size
    lines = ['client laptop']
    for i in range(QUEUED_FILES):
        lines += script(f's{i}', [f'write /q{i} x'])
    lines += ['hoard laptop /', 'disconnect laptop']
    work = [run(f's{i % QUEUED_FILES}') for i in range(items)] + ['connect laptop', 'drain laptop']
    return Work(lines + work, 'transactions', items, len(lines))


def looking(size):
    """What more and more transactions that wait have read."""
    items = QUEUED_FILES * size
    lines = ['client laptop', *script('init', ['write /n one']), *script('look', ['cat /n']), run('init')]
    lines += ['disconnect laptop'] + ['begin laptop look abort', 'step laptop', 'end laptop'] * items
    return Work(lines + ['queue laptop'] + [f'reads laptop {i + 1}' for i in range(items)], 'transactions', items, len(lines))


def rereads(size):
    """The submission of one transaction that has read one file more and more times."""
    reads = 250 * size
    lines = ['client laptop', *script('init', ['write /f x']), *script('work', ['read v /f'] * reads), run('init')]
    lines += ['disconnect laptop', 'begin laptop work abort', f'step laptop {reads}', 'end laptop', 'connect laptop']
    return Work(lines + ['sync laptop'], 'reads', reads, len(lines))


def submission(size, *meanwhile):
    """The submission of one transaction, whose request has more and more bytes; before it comes what the desk does meanwhile."""
    paths = [f'/f{i:04}' for i in range(PARTS * size)]
    # A part of the request is the read of a path, of 31 bytes, and the update there, of 30 bytes and what is written.
    contents = 'x' * (BYTES_OF_A_PART - 61)
    lines = ['client laptop', 'client desk', *script('init', [f'write {path} y' for path in paths])]
    lines += [*script('work', [f'write {path} {contents}' for path in paths]), *script('drop', [f'rm {paths[-1]}']), run('init')]
    lines += ['disconnect laptop', 'begin laptop work abort', f'step laptop {len(paths)}', 'end laptop', *meanwhile, 'connect laptop']
    return Work(lines + ['sync laptop'], 'bytes', len(paths) * BYTES_OF_A_PART, len(lines), len(meanwhile))


def submissions(size):
    """One that is committed."""
    return submission(size)


def conflicts(size):
    """One that is not, since the last path that it has read is gone."""
    return submission(size, run('drop', 'desk'))


# The cases in the order of the table, and those that need no more than `mkdir`, `write` and `cat`.
CASES = [
    transactions, tree, loops, moves, text, journal, clients, steps, acts, running, queue, looking, restarts, rereads, submissions, conflicts,
]
FIRST = [transactions, tree]
