"""Runs the program on each case at each size and prints the table."""

import argparse
import os
import re
import shutil
import subprocess
import sys
import tempfile
import time
from pathlib import Path

from cases import CASES, FIRST

ROOT = Path(__file__).resolve().parent.parent
BUILT = ROOT / 'crates' / 'iot' / 'out' / 'iot'
# GNU time has a small memory of its own; what wait4 tells is never less than this Python's.
TIME = shutil.which('time')
ROW = '{:<13} {:>4}  {:<18} {:>9} {:>17} {:>16} {:>12} {:>15}'
HEAD = ROW.format('case', 'size', 'units', 'seconds', 'instructions/unit', 'allocations/unit', 'peak KiB', 'peak bytes/unit')
ALLOCATORS = {'malloc', 'calloc', 'realloc', 'aligned_alloc', 'posix_memalign'}


def words():
    parser = argparse.ArgumentParser(prog='bench/run', description='Measures what a unit of work costs as inputs grow.')
    parser.add_argument('program', nargs='?', default=os.environ.get('IOT'), help='the built program, else $IOT, else '
                        'crates/iot/out/iot')
    parser.add_argument('--first', action='store_true', help='only the cases of mkdir, write and cat')
    parser.add_argument('--sizes', default='1,4,16', help='the sizes, with commas between them')
    parser.add_argument('--no-count', action='store_true', help='count no instructions')
    parser.add_argument('--keep', metavar='DIR', help='leave the inputs and transcripts in this directory')
    return parser.parse_args()


def program_of(given):
    """The program's path; the one of this repository is proved and built if it is missing."""
    if given is None and not os.access(BUILT, os.X_OK):
        crate = ROOT / 'crates' / 'iot'
        with open(crate / 'stdin', 'rb') as source:
            subprocess.run(['rt', 'run'], cwd=crate, stdin=source, stdout=subprocess.DEVNULL, check=True)
    path = shutil.which(given or BUILT)
    if path is None:
        sys.exit(f'bench/run: {given or BUILT} is no program')
    return os.path.abspath(path)


def timed(program, source, transcript):
    """The seconds and the peak resident memory in KiB of one run."""
    peak = transcript.with_suffix('.peak')
    command = [TIME, '-f', '%M', '-o', peak, program] if TIME else [program]
    with open(source, 'rb') as given, open(transcript, 'wb') as taken:
        begun = time.perf_counter()
        child = subprocess.Popen(command, stdin=given, stdout=taken)
        _, status, usage = os.wait4(child.pid, 0)
        seconds = time.perf_counter() - begun
    child.returncode = os.waitstatus_to_exitcode(status)
    if child.returncode != 0:
        sys.exit(f'bench/run: status {child.returncode} on {source.name}: {transcript.read_bytes()[:200]!r}')
    return seconds, int(peak.read_text()) if TIME else usage.ru_maxrss


def allocations(profile):
    """How often memory was asked for in the run of this profile. What is called has a number, which stands beside its name at first."""
    names, called, total = {}, '', 0
    for kind, number, name, calls in re.findall(r'^(c?fn)=\((\d+)\)(?: (.*))?$|^calls=(\d+)', profile.read_text(), re.M):
        if calls:
            total += int(calls) if called in ALLOCATORS else 0
        elif name:
            names[number] = name
        if kind == 'cfn':
            called = names[number]
    return total


def counted(program, source):
    """The instructions and the allocations of one run, by callgrind."""
    profile = source.with_suffix('.profile')
    command = ['valgrind', '--tool=callgrind', f'--callgrind-out-file={profile}', program]
    with open(source, 'rb') as given:
        ran = subprocess.run(command, stdin=given, stdout=subprocess.DEVNULL, stderr=subprocess.PIPE, text=True)
    found = re.search(r'Collected : (\d+)', ran.stderr)
    if ran.returncode != 0 or not found:
        sys.exit(f'bench/run: callgrind ended with {ran.returncode} on {source.name}: {ran.stderr[-400:]}')
    return int(found[1]), allocations(profile)


def check(transcript, runs, aborts):
    """Each `run` and each `sync` of the input has to have settled a transaction, but for so many that have given theirs up."""
    lines = transcript.read_bytes().split(b'\n')
    settled, aborted = (sum(line.startswith(word) for line in lines) for word in (b'settled ', b'abort '))
    if (settled, aborted) != (runs - aborts, aborts):
        sys.exit(f'bench/run: {settled} of {runs} transactions settled in {transcript.name}, and {aborted} were given up')


def measure(program, count, source, transcript):
    seconds, peak = timed(program, source, transcript)
    return seconds, peak, counted(program, source) if count else None


def per_unit(counts, before, units):
    """What is counted per unit, above what was counted before; nothing if nothing is counted."""
    if counts is None:
        return '', ''
    instructions, asked = ((count - fixed) / units for count, fixed in zip(counts, before))
    return f'{instructions:,.1f}', f'{asked:,.3f}'


def row(case, size, work, measured, base):
    """One line of the table; what is counted, and memory, are those above what the input's preparation costs alone."""
    seconds, peak, counts = measured
    memory = max(peak - base[1], 0) * 1024 / work.units
    units = f'{work.units:,} {work.what}'
    return ROW.format(case, f'{size}x', units, f'{seconds:.3f}', *per_unit(counts, base[2], work.units), f'{peak:,}', f'{memory:,.1f}')


def ran(directory, name, program, count, lines, aborts=0):
    """What a run on these lines costs, where each of its transactions settles, but for so many that are given up."""
    source = directory / f'{name}.events'
    source.write_text(''.join(f'{line}\n' for line in lines))
    transcript = source.with_suffix('.out')
    measured = measure(program, count, source, transcript)
    check(transcript, sum(line.startswith(('run ', 'sync ')) for line in lines), aborts)
    return measured


def bench(directory, program, options):
    count = not options.no_count and shutil.which('valgrind') is not None
    empty = ran(directory, 'empty', program, count, [])
    print(HEAD)
    fixed = ('', '') if empty[2] is None else (f'{count:,}' for count in empty[2])
    print(ROW.format('empty', '', '', f'{empty[0]:.3f}', *fixed, f'{empty[1]:,}', ''), flush=True)
    for make in FIRST if options.first else CASES:
        for size in map(int, options.sizes.split(',')):
            work = make(size)
            name = f'{make.__name__}-{size}'
            base = ran(directory, f'{name}-before', program, count, work.lines[:work.prepare]) if work.prepare else empty
            measured = ran(directory, name, program, count, work.lines, work.aborts)
            print(row(make.__name__, size, work, measured, base), flush=True)


def main():
    options = words()
    program = program_of(options.program)
    if options.keep:
        os.makedirs(options.keep, exist_ok=True)
        bench(Path(options.keep), program, options)
        return
    with tempfile.TemporaryDirectory() as directory:
        bench(Path(directory), program, options)


main()
