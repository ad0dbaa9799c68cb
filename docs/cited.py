"""What the page of promises cites of the crates: definitions, lemmas, functions with their clauses, and edits. Each has to be there."""

import re
from collections import defaultdict
from pathlib import Path

ROOT = Path(__file__).resolve().parent.parent
COLUMNS = {'contract': 'function', 'definition': 'definition', 'lemma': 'lemma', 'edit': 'edit'}


def texts(crate, *folders):
    """The texts of the files in these folders of a crate, by the names of the files without their endings."""
    found = defaultdict(str)
    for folder in folders:
        for file in (ROOT / 'crates' / crate / folder).rglob('*.*t'):
            found[file.stem] += file.read_text()
    return found


class Crate:
    """What a crate has of its own. A lemma may stand beside the definitions, and a law that is cited as a definition beside the lemmas."""

    def __init__(self, name):
        self.modules = texts(name, 'specs', 'proofs')
        self.code = '\n'.join(texts(name, 'src').values())
        edits = [*ROOT.glob(f'crates/{name}/must-fail/*.edit'), *ROOT.glob(f'edits/{name}/*.edit')]
        self.edits = {file.stem for file in edits}

    def has_in_module(self, cited):
        """Whether this module is there and has what is cited of it, if anything is."""
        module, _, name = cited.rpartition('/')[2].partition('.')
        text = self.modules.get(module)
        return text is not None and (not name or re.search(rf'(?<![\w-]){re.escape(name)}(?![\w-])', text) is not None)

    def has_function(self, cited):
        """Whether there is a function or a type of this name, or a clause of it."""
        name = cited.rpartition('::')[2]
        return re.search(rf'\b(fn|struct|enum|trait|ensures|requires|mod) {re.escape(name)}\b', self.code) is not None

    def has(self, kind, cited):
        if kind == 'function':
            return self.has_function(cited)
        return cited in self.edits if kind == 'edit' else self.has_in_module(cited)


class Crates:
    def __init__(self):
        self.all = {folder.name: Crate(folder.name) for folder in (ROOT / 'crates').iterdir()}

    def named(self, words):
        """The crates that these words name, in code."""
        return [name for name in re.findall(r'`(\w+)`', words) if name in self.all]

    def has(self, kind, names, cited):
        """Whether one of these crates has it."""
        return any(self.all[name].has(kind, cited) for name in names)


def tables(page):
    """Each table of the page, with the words before it and those after it."""
    parts = re.split(r'((?:^\|.*\n)+)', page, flags=re.M)
    return zip(parts[::2], parts[1::2], parts[2::2])


def cells_of(line):
    return [cell.strip() for cell in line.strip('|').split(' | ')]


def cited_in(page, crates):
    """Of each thing that the tables of the page cite the crates that may have it, its kind and its name.

    That is the crate before the name. Else it is one of those that the words between the heading and the table name, or if they name none,
    those of the table before; or of an edit one that the words below the table name.
    """
    above = []
    for before, table, after in tables(page):
        above = crates.named(before.rpartition('\n#')[2]) or above
        head, _, *rows = map(cells_of, table.splitlines())
        for kind, cell in ((COLUMNS.get(name), cell) for row in rows for name, cell in zip(head, row)):
            below = crates.named(after) if kind == 'edit' else []
            for crate, cited in re.findall(r'`(?:(iot_\w+)(?: |::))?([^`]+)`', cell) if kind else []:
                yield [crate] if crate else above + below, kind, cited


def faults(page, crates):
    cited = list(cited_in(page, crates))
    missing = [f'there is no {kind} {name} in {" or ".join(names)}' for names, kind, name in cited if not crates.has(kind, names, name)]
    return missing if cited else ['nothing is cited']


def is_named(span, crates):
    """Whether what is named so in a sentence is there: a definition or a lemma, an item, or a crate; anything else is no such name."""
    if re.fullmatch(r'[A-Z][a-z]\w*\.[\w-]+', span):
        return crates.has('definition', crates.all, span)
    if re.fullmatch(r'(\w+::)+\w+', span):
        return any(re.search(rf'\b{span.rpartition("::")[2]}\b', crate.code) for crate in crates.all.values())
    return not re.fullmatch(r'iot_\w+', span) or span in crates.all


def strangers(page, crates):
    """What the sentences of the page name in code, and is not there."""
    spans = re.findall(r'`([^`\n]+)`', re.sub(r'```.*?```', '', page, flags=re.S))
    return [f'there is no {span}' for span in dict.fromkeys(spans) if not is_named(span, crates)]
