"""Why a line in a script is no statement."""

import re

# What each statement takes: X a variable's name, other letters words.
STATEMENTS = {
    'echo': 'echo W', 'cat': 'cat P', 'ls': 'ls P', 'set': 'set X W', 'read': 'read X P', 'mkdir': 'mkdir P', 'rmdir': 'rmdir P',
    'rm': 'rm P', 'write': 'write P W', 'append': 'append P W', 'copy': 'copy P Q', 'concat': 'concat Q P1 P2', 'mv': 'mv P Q',
    'keep': 'keep P Q', 'chmod': 'chmod +x P', 'if': 'if CONDITION {', 'for': 'for X in P {', 'stop': 'stop',
}  # fmt: skip
CONDITIONS = {'file': 'if file P {', 'dir': 'if dir P {', 'exec': 'if exec P {', 'same': 'if same P Q {', 'ok': 'if ok {'}


class Fault(Exception):
    """A column and a reason."""

    def __init__(self, place, reason):
        super().__init__(reason)
        self.found = (place + 1, reason)


def block_of(word):
    return word in ('if', 'for')


def past_blanks(line, at):
    return at + len(line[at:]) - len(line[at:].lstrip(' \t'))


def quoted(line, start):
    """The place behind the quoted text that starts here."""
    at = start + 1
    while at < len(line) and line[at] != '"':
        if line[at] == '\\' and line[at + 1:at + 2] not in ('n', '"', '\\'):
            raise Fault(at, f'no escape `{line[at:at + 2]}`: there are `\\n`, `\\"` and `\\\\`')
        at += 2 if line[at] == '\\' else 1
    if at >= len(line):
        raise Fault(start, 'the quotes that open here are not closed')
    return at + 1


def piece(line, at):
    """The place behind the piece that starts here."""
    if line[at] == '"':
        return quoted(line, at)
    if line[at] == '$':
        found = re.match('[A-Za-z0-9_]{1,32}', line[at + 1:])
        if not found:
            raise Fault(at, 'no name follows the `$`')
        return at + 1 + found.end()
    if line[at] == '\\':
        raise Fault(at, 'a backslash belongs in quotes')
    if line[at] in '{}':
        blank = line[at] == '{' and line[at - 1] not in ' \t' and not line[at + 1:].strip(' \t')
        raise Fault(at, 'a blank belongs before this `{`, or quotes around it' if blank else f'`{line[at]}` belongs in quotes here')
    return at + len(re.match(r'[^ \t"$\\{}]+', line[at:])[0])


def word(line, at, form):
    """The place behind the next word."""
    at = past_blanks(line, at)
    if at == len(line) or line[at:].rstrip(' \t') == '{' and form.endswith('{'):
        raise Fault(at, f'a word is missing: `{form}`')
    while at < len(line) and line[at] not in ' \t':
        at = piece(line, at)
    return at


def very(line, at, wanted, form):
    """The place behind this very word."""
    at = past_blanks(line, at)
    found = re.match(r'[^ \t]*', line[at:])[0]
    if found != wanted:
        raise Fault(at, f'`{wanted}` is missing: `{form}`' if not found else f'`{wanted}` belongs here, not `{found}`: `{form}`')
    return at + len(wanted)


def switch(line, at, form):
    """The place behind `+x` or `-x`."""
    at = past_blanks(line, at)
    found = re.match(r'[^ \t]*', line[at:])[0]
    if found not in ('+x', '-x'):
        raise Fault(at, f'`+x` or `-x` belongs here, not `{found}`: `{form}`' if found else f'`+x` or `-x` is missing: `{form}`')
    return at + len(found)


def variable(line, at, form):
    """The place behind a variable's name."""
    at = past_blanks(line, at)
    found = re.match(r'[^ \t]*', line[at:])[0]
    if found.startswith('$'):
        raise Fault(at, f'the name stands without `$` here: `{form}`')
    if not re.fullmatch('[A-Za-z0-9_]{1,32}', found):
        reason = f'`{found}` is no name of a variable: 1 to 32 letters, digits and `_`'
        raise Fault(at, reason if found else f'a word is missing: `{form}`')
    return at + len(found)


def end(line, at, form):
    at = past_blanks(line, at)
    if line[at:].startswith('#'):
        raise Fault(at, 'a `#` after a statement begins no comment')
    if at < len(line):
        raise Fault(at, f'a word too many: `{form}`' + ('; quotes make one word of several' if form == 'echo W' else ''))


def by_form(line, at, form, taken=1):
    """Wants what comes after the first words of this form."""
    for slot in form.split()[taken:]:
        if slot == 'X':
            at = variable(line, at, form)
        elif slot == '+x':
            at = switch(line, at, form)
        elif slot[0].isupper():
            at = word(line, at, form)
        else:
            at = very(line, at, slot, form)
    end(line, at, form)


def by_condition(line, at, near):
    start = past_blanks(line, at)
    name = re.match(r'[^ \t]*', line[start:])[0]
    if name == 'not':
        raise Fault(start, 'there is no `not`: leave the first block empty, and use `} else {`')
    if name.endswith('{') and name[:-1] in CONDITIONS:
        raise Fault(start + len(name) - 1, 'a blank belongs before this `{`')
    if name not in CONDITIONS:
        raise Fault(start, f'no condition `{name}`{near(name, CONDITIONS)}; there are file P, dir P, same P Q and ok')
    by_form(line, start + len(name), CONDITIONS[name], 2)


def by_closing(line, at, blocks):
    """A line that begins with `}`."""
    if line[at:].split() != ['else', '{']:
        raise Fault(past_blanks(line, at), 'after `}` comes nothing, or `else {`')
    if not blocks:
        raise Fault(at - 1, 'this `else` belongs to no `if`')
    name, opened = blocks[-1]
    if name == 'else':
        raise Fault(at - 1, f'the `if` has its `else` in line {opened} already')
    if name == 'for':
        raise Fault(at - 1, f'this `else` belongs to no `if`: it would close the `for` of line {opened}')


def want_statement(line, blocks, near):
    start = past_blanks(line, 0)
    name = re.match(r'[^ \t]*', line[start:])[0]
    at = start + len(name)
    if name == '}':
        by_closing(line, at, blocks)
    elif name == 'if':
        by_condition(line, at, near)
    elif name in STATEMENTS:
        by_form(line, at, STATEMENTS[name])
    elif name == 'else':
        raise Fault(start, '`else` stands behind the `}` of its `if`: `} else {`')
    elif name[0] == '}':
        raise Fault(start + 1, 'after `}` comes nothing, or a blank and `else {`')
    else:
        raise Fault(start, f'no statement `{name}`{near(name, STATEMENTS)}')


def statement_fault(line, blocks, near):
    """The column and the reason why this line is no statement in these blocks, or nothing."""
    try:
        want_statement(line, blocks, near)
    except Fault as fault:
        return fault.found
    return None
