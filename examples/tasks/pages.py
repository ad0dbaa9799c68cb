"""What the tasks of this folder take from the pages, and how they say what differs."""

import os
import re
import subprocess
import sys
from pathlib import Path

ROOT = Path(__file__).resolve().parent.parent.parent
PROGRAM = Path(os.environ.get('IOT', ROOT / 'iot')).resolve()


def page(name):
    return (ROOT / 'docs' / name).read_text()


def blocks(text, kind='text'):
    return re.findall(rf'```{kind}\n(.*?)```', text, re.S)


def section(text, heading):
    """What stands below a heading, up to the next one of its kind."""
    level = heading.split()[0]
    return re.split(rf'(?m)^{level} ', text.split(f'\n{heading}\n', 1)[1])[0]


def table(text, head):
    """The rows of the table whose head begins so, as lists of cells."""
    lines = text[text.index(f'\n| {head}') + 1:].splitlines()[2:]
    rows = lines[:next((place for place, line in enumerate(lines) if not line.startswith('|')), len(lines))]
    return [[cell.strip() for cell in row.strip('|').split(' | ')] for row in rows]


def spans(text):
    """What stands in code in the sentences."""
    return re.findall(r'`([^`]+)`', re.sub(r'```.*?```', '', text, flags=re.S))


def printed(events):
    """What the program prints for these events."""
    return subprocess.run([PROGRAM], input=events, capture_output=True, text=True).stdout


class Task:
    """A task, which is done if everything in it is as the pages say."""

    def __init__(self):
        self.steps = self.faults = 0

    def holds(self, what, good, seen=''):
        self.steps += 1
        if not good:
            self.faults += 1
            print(f'{what}: differs\n{seen}'.rstrip())

    def end(self):
        name = Path(sys.argv[0]).name
        print(f'task {name}: {self.steps} steps, {self.faults} differ')
        sys.exit(1 if self.faults or not self.steps else 0)
