"""Why a line of an event script is refused: a look at the line and at what stands before it."""

import re
from dataclasses import dataclass, field
from difflib import get_close_matches
from itertools import zip_longest

from statements import STATEMENTS, block_of, statement_fault

LINE_LIMIT = 4096
CLIENT_LIMIT, SCRIPT_LIMIT, PROFILE_LIMIT, DEPTH_LIMIT, WISH_LIMIT = 8, 256, 64, 16, 256
LIMITS = {'k': 100_000, 'i': 1_000_000, 'K': 1_000_000, 'T': 1_000_000, 'LIMIT': 1_000_000, 'PRIORITY': 1_000}
OPTIONS = 'reexec, resolver S, abort or manual'
SPELLED = (('LOSS', 'request'), ('LOSS', 'reply'), ('NODE', 'server'), ('NODE', 'C'), ('PROFILE', 'N'),
           ('DISK', 'server'), ('DISK', 'backup'), ('DISK', 'C'))

# The forms of each event. Capital letters are slots: N a new name, C a client, S a script, NODE a client or the server, DISK one of them
# or the server's backup.
FORMS = {
    'client': ['client N'],
    'script': ['script N {'],
    'profile': ['profile N {'],
    'connect': ['connect C'],
    'disconnect': ['disconnect C'],
    'lose': ['lose C LOSS'],
    'hoard': ['hoard C P'],
    'refresh': ['refresh C'],
    'walk': ['walk C PROFILE LIMIT'],
    'begin': ['begin C S OPTION', 'begin C S resolver S'],
    'step': ['step C', 'step C k', 'step C k T'],
    'end': ['end C', 'end C T'],
    'sync': ['sync C'],
    'repair': ['repair C S'],
    'discard': ['discard C'],
    'drain': ['drain C'],
    'run': ['run C S OPTION', 'run C S resolver S'],
    'show': ['show NODE'],
    'queue': ['queue C'],
    'reads': ['reads C i'],
    'log': ['log'],
    'stop': ['stop DISK K PICK'],
    'crash': ['crash NODE'],
    'restart': ['restart NODE'],
    'promote': ['promote'],
}

# The form of a line in a profile, which may end before its last word, and how the pages spell it.
WISH = ['PRIORITY', 'P', 'below']
WISH_SHOWN = '`PRIORITY P` or `PRIORITY P below`'

# What declares the name that belongs in a slot, and the names that fit there though no line declares them.
DECLARING = {'C': 'client', 'NODE': 'client', 'DISK': 'client', 'S': 'script', 'PROFILE': 'profile'}
UNDECLARED = {'NODE': ['server'], 'DISK': ['server', 'backup']}

# What the names are that no client may have, and what takes them.
TAKEN = {'server': ('the server', 'only `show`, `stop`, `crash` and `restart` take it'),
         'backup': ("the server's backup", 'only `stop` takes it')}


@dataclass
class Script:
    """An event script, and what its lines have declared before a line."""

    given: bytes

    # By the word of the event that declares them: the names, and on which line.
    declared: dict = field(default_factory=lambda: {'client': {}, 'script': {}, 'profile': {}})

    # The script or profile that is open: the number of its first line, its word, its blocks, and the last one that was closed.
    opened: int = 0
    opener: str = ''
    blocks: list = field(default_factory=list)
    closed: tuple = ()

    def __post_init__(self):
        self.lines = self.given.split(b'\n')

    def read_until(self, number):
        """Takes the lines before that of this number."""
        for at, line in enumerate(self.lines[: number - 1], 1):
            words = words_of(line)
            if self.opened:
                self.take_inside(at, words)
            elif len(words) > 1 and words[0] in self.declared:
                self.declared[words[0]].setdefault(words[1], at)
                if words[0] != 'client':
                    self.opened, self.opener, self.blocks, self.closed = at, words[0], [], ()

    def take_inside(self, at, words):
        if words == ['}']:
            self.closed = (at, *(self.blocks.pop() if self.blocks else (self.opener, self.opened)))
            if self.closed[1] == self.opener:
                self.opened = 0
        elif self.opener == 'profile':
            pass  # No line of a profile opens a block.
        elif words[:2] == ['}', 'else'] and self.blocks:
            self.blocks[-1] = ('else', at)
        elif words and block_of(words[0]):
            self.blocks.append((words[0], at))

    def later(self, kind, name, number):
        """The line after that of this number that declares this name, or 0."""
        for at, line in enumerate(self.lines[number:], number + 1):
            if words_of(line)[:2] == [kind, name]:
                return at
        return 0


def words_of(line):
    return re.findall(r'[^ \t]+', line.decode('latin-1'))


def column_of(line, place):
    """The column of the word at a place; behind the last word, that of the end."""
    starts = [found.start() for found in re.finditer(rb'[^ \t]+', line)]
    return (starts[place] if place < len(starts) else len(line)) + 1


def near(word, known, otherwise=''):
    found = get_close_matches(word.lower(), known, 1, 0.5)
    return f': did you mean `{found[0]}`?' if found else otherwise


def is_name(word):
    return re.fullmatch(r'[A-Za-z0-9_.-]{1,32}', word) and word not in ('.', '..')


def byte_fault(line, number):
    """The first byte that no line may have."""
    found = re.search(rb'[^ -~\t]', line)
    if not found:
        return None
    byte, column = found[0][0], found.start() + 1
    if byte == 13 and column == len(line):
        return column, 'byte 13: save with Unix line ends'
    if number == 1 and line.startswith((b'\xef\xbb\xbf', b'\xff\xfe', b'\xfe\xff')):
        return column, f'byte {byte}: save without a byte order mark, as plain text'
    letter = line[found.start():].decode('utf-8', 'replace')[0]
    named = f' (`{letter}`)' if letter.isprintable() and letter != '\ufffd' else ''
    return column, f'byte {byte}{named}: a line has only bytes 32 to 126, and tabs'


def line_fault(line, number):
    """What breaks the rule on bytes and length."""
    if len(line) > LINE_LIMIT:
        return byte_fault(line, number) or (LINE_LIMIT + 1, f'the line has {len(line)} bytes, and may have {LINE_LIMIT}')
    return byte_fault(line, number)


def path_fault(word):
    if word[0] in '"\'':
        return 'a path is not quoted here'
    if not word.startswith('/'):
        return 'a path begins with `/`'
    if word.endswith('/'):
        return 'a path does not end with `/`'
    return 'a name in a path has 1 to 32 letters, digits, `_`, `-` and `.`, and is neither `.` nor `..`'


def slot_fault(slot, word):
    """Why this word does not belong in this slot, or nothing."""
    if slot in LIMITS:
        fits = re.fullmatch('[1-9][0-9]{0,6}', word) and int(word) <= LIMITS[slot]
        return '' if fits else f'a {"priority" if slot == "PRIORITY" else "number"} is 1 to {LIMITS[slot]}, without a leading zero'
    if slot == 'P':
        names = word[1:].split('/')
        return '' if word == '/' or word.startswith('/') and all(map(is_name, names)) else path_fault(word)
    if slot == 'OPTION':
        return '' if word in ('reexec', 'abort', 'manual') else f'`{word}` is no option: {OPTIONS}'
    if slot == 'LOSS':
        return '' if word in ('request', 'reply') else f'`{word}` is no message: request or reply'
    if slot == 'PICK':
        fits = word in ('old', 'new', '0') or re.fullmatch('[1-9][0-9]{0,2}', word) and int(word) <= 255
        return '' if fits else f'`{word}` is none of old, new and 0 to 255'
    if slot == 'N' or slot in DECLARING:
        return '' if is_name(word) else f'`{word}` is no name: 1 to 32 letters, digits, `_`, `-` and `.`'
    return '' if word == slot else f'`{slot}` belongs here, not `{word}`'


def form_of(words):
    """The form that the words are likely to be meant for, and whether they are as many."""
    forms = [form.split() for form in FORMS[words[0]]]
    resolving = [form for form in forms if 'resolver' in form]
    if resolving and words[3:4] == ['resolver']:
        return resolving[0], len(words) == 5
    plain = [form for form in forms if form not in resolving]
    fitting = [form for form in plain if len(form) == len(words)]
    return (fitting or [max(plain, key=len) if len(words) > 2 else plain[0]])[0], bool(fitting)


def shown_forms(event):
    """The forms of an event as the pages spell them."""
    plain = [form for form in FORMS[event] if 'resolver' not in form]
    spelled = [form.replace(slot, word) for form in plain for slot, word in SPELLED if slot in form] or plain
    return ' or '.join(f'`{form}`' for form in spelled)


def count_fault(line, words, form):
    """An event with another number of words than its form has."""
    shown = shown_forms(words[0])
    if len(words) >= len(form):
        return column_of(line, len(form)), f'a word too many; the form is {shown}'
    what = {'OPTION': f'the option is missing: {OPTIONS}', '{': 'a blank and `{` are missing'}.get(form[len(words)], 'a word is missing')
    if words[3:] == ['resolver']:
        what = 'the script after `resolver` is missing'
    return column_of(line, len(words)), f'{what}; the form is {shown}'


def outside_fault(script, line):
    """What belongs in a script or in a profile, and none is open."""
    first = words_of(line)[0]
    place = 'profile' if first.isdecimal() or first == '}' and script.closed[1:2] == ('profile',) else 'script'
    ends = f'no {place} is open'
    if script.closed:
        ends = f'the `{script.closed[1]}` of line {script.closed[2]} ends in line {script.closed[0]}'
    return column_of(line, 0), f'`{first}` belongs in a {place}, and {ends}'


def wish_fault(script, line):
    """Why the words of this line of a profile have neither of the forms."""
    words = words_of(line)
    if words[0] in FORMS:
        return column_of(line, 0), f'`{words[0]}` is an event, and the `profile` of line {script.opened} is open: a line `}}` closes it'
    if words[0] == '}':
        return column_of(line, 1), 'after `}` comes nothing'
    for place, (word, slot) in enumerate(zip(words, WISH)):
        if word.startswith('#'):
            return column_of(line, place), 'a `#` after a wish begins no comment'
        if slot_fault(slot, word):
            return column_of(line, place), slot_fault(slot, word)
    what = 'a word is missing' if len(words) < len(WISH) else 'a word too many'
    return column_of(line, min(len(words), len(WISH))), f'{what}; the form is {WISH_SHOWN}'


def form_fault(script, line):
    """Why the words of this line have none of the forms."""
    words = words_of(line)
    if not words:
        return None
    if words[0] not in FORMS and (words[0] == '}' or words[0].isdecimal() or words[0] in STATEMENTS):
        return outside_fault(script, line)
    if words[0] not in FORMS:
        return column_of(line, 0), f'no event `{words[0]}`{near(words[0], FORMS)}'
    form, fits = form_of(words)
    for place, (word, slot) in enumerate(zip_longest(words, form, fillvalue='')):
        if word.startswith('#'):
            return column_of(line, place), 'a `#` after an event begins no comment'
        if place and word and slot and slot_fault(slot, word):
            return column_of(line, place), slot_fault(slot, word)
    return None if fits else count_fault(line, words, form)


def closing_lookalike(script, number):
    """A line of the script or profile that begins like a closing one, and is none."""
    known = (['}'], ['}', 'else', '{']) if script.opener == 'script' else (['}'],)
    for at, line in enumerate(script.lines[number:], number + 1):
        if line.strip(b' \t').startswith(b'}') and words_of(line) not in known:
            return at
    return 0


def open_fault(script, number):
    """A script or a profile that no line closes."""
    script = Script(script.given)
    script.read_until(len(script.lines) + 1)
    if script.opened != number:
        return None
    told = f'the `{script.opener}` of line {number} is never closed by a line `}}`'
    if script.blocks:
        name, at = script.blocks[-1]
        return 1, f'the `{name}` of line {at} is never closed, and so neither is the `script` of line {number}'
    if closing_lookalike(script, number):
        return 1, f'{told}: line {closing_lookalike(script, number)} has more than that'
    if script.closed:
        return 1, f'{told}: that of line {script.closed[0]} closes the `{script.closed[1]}` of line {script.closed[2]}'
    return 1, told


def bad_line(script, number, line):
    if script.opened:
        return line_fault(line, number) or wish_fault(script, line)
    return line_fault(line, number) or form_fault(script, line) or open_fault(script, number)


def name_slots(words):
    """Each word that has to be declared, with its place, with what declares it, and with the names that fit there besides."""
    form, _ = form_of(words)
    for place, slot in enumerate(form):
        besides = UNDECLARED.get(slot, [])
        if slot in DECLARING and words[place] not in besides:
            yield place, DECLARING[slot], words[place], besides


def unknown_name(script, number, line):
    for place, kind, name, besides in name_slots(words_of(line)):
        known = script.declared[kind]
        if name in known:
            continue
        others = [other for other, names in script.declared.items() if name in names]
        if kind == 'client' and name in TAKEN:
            reason = f'`{name}` is no client: {TAKEN[name][1]}'
        elif script.later(kind, name, number):
            reason = f'no {kind} `{name}` yet: line {script.later(kind, name, number)} declares it'
        elif others:
            reason = f'no {kind} `{name}`: that is a {others[0]}'
        else:
            reason = f'no {kind} `{name}`{near(name, [*known, *besides], ";")} declared: {", ".join(known) or "none"}'
        return column_of(line, place), reason
    return None


def named_twice(script, number, line):
    kind, name = words_of(line)[:2]
    if kind == 'client' and name in TAKEN:
        return column_of(line, 1), f'`{name}` is {TAKEN[name][0]}: no client has this name'
    return column_of(line, 1), f'the {kind} `{name}` is declared by line {script.declared[kind][name]} already'


def too_many(script, number, line):
    first = words_of(line)[0]
    if script.opened:
        told = f'a wish too many: at most {WISH_LIMIT} are in a profile'
    elif first == 'client':
        told = f'a ninth client: at most {CLIENT_LIMIT} are declared'
    else:
        told = f'a {first} too many: at most {SCRIPT_LIMIT if first == "script" else PROFILE_LIMIT} are declared'
    return column_of(line, 0), told


def event_inside(script, line):
    """An event where a statement belongs: something before it is not closed."""
    told = f'`{words_of(line)[0]}` is an event, and the `script` of line {script.opened} is open'
    if script.blocks:
        return column_of(line, 0), f'{told}: the `{script.blocks[-1][0]}` of line {script.blocks[-1][1]} is not closed'
    if script.closed:
        return column_of(line, 0), f'{told}: line {script.closed[0]} closes the `{script.closed[1]}` of line {script.closed[2]}'
    return column_of(line, 0), f'{told}: a line `}}` closes it'


def bad_statement(script, number, line):
    words = words_of(line)
    if words[0] in FORMS and (words[0] not in STATEMENTS or words[0] == 'stop' and len(words) == 4):
        return event_inside(script, line)
    return statement_fault(line.decode('latin-1'), script.blocks, near)


def too_deep(script, number, line):
    return column_of(line, 0), f'a block number {DEPTH_LIMIT + 1} in others, of which the first begins in line {script.blocks[0][1]}'


REASONS = {
    'bad line': bad_line,
    'unknown name': unknown_name,
    'named twice': named_twice,
    'too many': too_many,
    'bad statement': bad_statement,
    'nested too deep': too_deep,
}


def reason_of(script, number, said):
    """The column and the likely reason of what the program said of this line, or nothing."""
    if said not in REASONS or not 1 <= number <= len(script.lines):
        return None
    script.read_until(number)
    return REASONS[said](script, number, script.lines[number - 1])
