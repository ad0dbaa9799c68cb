"""The day that the words of a command name: an event script, and what the program prints for it."""

import os
import subprocess
import sys
from pathlib import Path

from transcript import Day, Strange, read_events

PROGRAM = os.environ.get('IOT', Path(__file__).resolve().parent.parent / 'iot')


def decoded(name, content):
    try:
        return content.decode()
    except UnicodeDecodeError as fault:
        raise Strange(f'{name}: byte {fault.start + 1} is no UTF-8') from None


def read(name):
    """The text of a file."""
    try:
        return decoded(name, Path(name).read_bytes())
    except OSError as fault:
        raise Strange(f'{name}: {fault.strerror}') from None


def printed(script):
    """What the program prints for an event script."""
    try:
        done = subprocess.run([PROGRAM], input=script.encode(), capture_output=True)
    except OSError as fault:
        raise Strange(f'{PROGRAM}: {fault.strerror}') from None
    if done.returncode:
        last = decoded(PROGRAM, done.stdout or done.stderr).strip().split('\n')[-1]
        raise Strange(f'{PROGRAM} ended with status {done.returncode}: {last}')
    return decoded(PROGRAM, done.stdout)


def day(name, output=None):
    """The day of this script and this output, which are names of files. Without the second one the program is run."""
    script = read(name)
    text = printed(script) if output is None else read(output)
    lines = text.removesuffix('\n').split('\n') if text else []
    try:
        return Day(read_events(script), lines)
    except Strange as fault:
        raise Strange(f'{name}: {fault}') from None


def write(text):
    """The text goes to standard output, as UTF-8 whatever the surroundings say. Whoever reads it need not read on."""
    try:
        with open(sys.stdout.fileno(), 'wb', closefd=False) as out:
            out.write(text.encode(errors='replace'))
    except BrokenPipeError:
        pass
    except OSError as fault:
        raise Strange(f'standard output: {fault.strerror}') from None


def carry_out(usage, words, options, make):
    """Writes what is made of the day that the words name and of the options among them; the status with which the command ends."""
    names = [word for word in words if word not in options]
    if len(names) not in (1, 2) or any(name.startswith('-') for name in names):
        print(usage.strip(), file=sys.stderr)
        return 2
    try:
        write(make(day(*names), Path(names[0]).name, [word for word in words if word in options]))
    except Strange as fault:
        print(f'{Path(sys.argv[0]).name}: {fault}', file=sys.stderr)
        return 1
    return 0
