"""Which lines the program prints for which event, and what a reader knows of each node by then."""

import re
from dataclasses import dataclass, field
from typing import Callable

REFUSALS = {'down', 'up', 'busy', 'pending', 'idle', 'nothing', 'not at end', 'not manual'}
# What the server's backup looks like while the server keeps a copy there, and the server's first disk after the backup was promoted.
COPY, GIVEN_UP = ('copy', {}, {}), ('none', {}, {})
NEVER_REFUSED = {'client', 'connect', 'disconnect', 'lose', 'stop'}


class Strange(Exception):
    """The lines are not those of these events, or an event is unknown."""


class Halted(Exception):
    """A client has stopped, so the rest of its event is silent."""


def nothing_more(_):
    """What is so after the restart of a node that had nothing in doubt of which there is anything to be seen."""


@dataclass
class Event:
    """The lines of an event, or of comments that follow one another, and the number that the first of them has in the file."""

    lines: list
    number: int


@dataclass
class Item:
    """A transaction that waits. Its slot is a place beside its client's lane that no other one has meanwhile."""

    number: str
    option: str
    slot: int
    stage: str = 'waiting'

    def repair(self):
        self.option, self.stage = 'resolver', 'conflict'


@dataclass
class Run:
    """A transaction that runs: on its client's lane, or in a slot beside it. It may have started again."""

    number: str
    option: str
    first: bool
    slot: int | None
    again: int = 0


@dataclass
class Node:
    name: str
    alive: bool = True
    up: bool = True
    loss: str = ''
    last: int = 0
    running: list = field(default_factory=list)
    queue: list = field(default_factory=list)

    # What is to be done at its restart, by whether the record in doubt was kept.
    doubt: Callable = nothing_more

    def snapshot(self):
        """How the lane looks from here on: its state, what runs on it, and what waits beside it."""
        state = 'down' if not self.alive else 'up' if self.up else 'away'
        running = {run.number: (run.slot, 'first' if run.first else 'second', run.again) for run in self.running}
        return state, running, {item.number: (item.slot, item.stage) for item in self.queue}

    def free_slot(self):
        taken = {one.slot for one in [*self.queue, *self.running]}
        return next(n for n in range(len(taken) + 1) if n not in taken)

    def begin(self, option, first=False):
        """The next transaction runs, on the lane unless another one is there."""
        self.last += 1
        slot = self.free_slot() if any(run.slot is None for run in self.running) else None
        self.running.append(Run(str(self.last), option, first, slot))
        return self.running[-1]

    def meant(self, number):
        """The running transaction with this number, or without one the first."""
        return [run for run in self.running if number in ('', run.number)][0]

    def yields(self, run):
        """It is second class from now on, if others wait."""
        run.first = run.first and not self.queue

    def all_second(self):
        for run in self.running:
            run.first = False

    def wait(self, run):
        """What ran waits."""
        slot = self.free_slot() if run.slot is None else run.slot
        self.running.remove(run)
        self.queue.append(Item(run.number, run.option, slot))


@dataclass
class Row:
    """One moment of the day: what was asked, on which line, what was printed, and what there is to be seen of it.

    The server is at its home: `server`, or `backup` since that was promoted.
    """

    number: int = 0
    asked: list = field(default_factory=list)
    said: list = field(default_factory=list)
    caption: str = ''
    node: str = ''
    home: str = 'server'
    exchange: tuple = ()
    marks: list = field(default_factory=list)
    lanes: dict = field(default_factory=dict)


def read_events(text):
    """The events of a script."""
    events, block, depth = [], None, 0
    for number, line in enumerate(text.split('\n'), 1):
        words = line.split()
        if block is not None:
            block.append(line)
            # In a profile no line opens a block.
            depth += words[:1] in (['if'], ['for']) and block[0].split()[0] == 'script'
            if words == ['}']:
                depth -= 1
                block = block if depth else None
        elif words[:1] in (['script'], ['profile']):
            block, depth = [line], 1
            events.append(Event(block, number))
        elif line.strip().startswith('#'):
            note = line.strip().lstrip('#').strip()
            if events and events[-1].lines[0].startswith('#'):
                events[-1].lines.append(note)
            else:
                events.append(Event(['#' + note], number))
        elif words:
            events.append(Event([' '.join(words)], number))
    return events


def names_backup(event):
    """Whether the event speaks of the server's backup."""
    return event.lines[0].split()[:2] == ['stop', 'backup'] or event.lines[0].split() == ['promote']


def kind(line):
    """The word that says what a printed line is about: mostly its first one."""
    if line.startswith('|'):
        return 'output'
    words = line.split() or ['']
    return words[-1] if words[-1] in ('away', 'stopped') and words[0] != 'client' else words[0]


class Day:
    """Goes through the events and the lines together."""

    def __init__(self, events, lines):
        self.lines, self.at = lines, 0
        self.server, self.clients, self.rows = Node('server'), {}, []
        self.has_backup, self.home = any(map(names_backup, events)), 'server'
        self.listed = set()
        if self.next() == 'server stopped':
            self.rows.append(Row(node='server'))
            self.stop(self.server)
            self.close()
        for event in events:
            try:
                self.do(event)
            except (Strange, IndexError) as fault:
                why = fault if isinstance(fault, Strange) else 'the lines of the output are not those of this event'
                raise Strange(f'line {event.number} of the script: {why}') from None
        if self.at < len(lines):
            raise Strange(f'line {self.at + 1} of the output belongs to no event: {lines[self.at]!r}')

    # ---- lines and rows

    def next(self):
        return self.lines[self.at] if self.at < len(self.lines) else ''

    def take(self, front=''):
        """The next line, which begins in this way, goes into the last row."""
        line = self.next()
        if not line.startswith(front) or self.at == len(self.lines):
            raise Strange(f'line {self.at + 1} of the output should begin with {front or "something"!r}: {line!r}')
        self.at += 1
        self.rows[-1].said.append(line)
        return line

    def row(self, node):
        """A new row, if the last one has an exchange or lines already."""
        last = self.rows[-1]
        if last.exchange or last.said:
            self.close()
            self.rows.append(Row(last.number, node=node))

    def mark(self, what, node, text=''):
        self.rows[-1].marks.append((what, node, text))

    def stop(self, node, doubt=nothing_more):
        """The node has stopped, with this in doubt."""
        self.take(f'{node.name} stopped')
        self.mark('crash', node.name)
        node.alive, node.doubt = False, doubt

    def halts(self, client, doubt=nothing_more):
        """If the client has stopped here, with this in doubt, the event is over."""
        if self.next() == f'{client.name} stopped':
            self.stop(client, doubt)
            raise Halted

    def commit(self):
        """The server commits a transaction."""
        words = self.take('commit ').split()
        self.mark('commit', 'server', words[1])
        self.listed.add(words[2])
        self.output()

    def close(self):
        """The last row is over, and shows the nodes as they are now."""
        lanes = {node.name: node.snapshot() for node in [self.server, *self.clients.values()]}
        if self.home == 'backup':
            lanes.update(server=GIVEN_UP, backup=lanes['server'])
        elif self.has_backup:
            lanes['backup'] = COPY
        self.rows[-1].lanes, self.rows[-1].home = lanes, self.home

    # ---- events

    def do(self, event):
        first = event.lines[0]
        words = first.split()
        if first.startswith('#'):
            self.rows.append(Row(event.number, caption=' '.join([first[1:], *event.lines[1:]])))
        elif words[0] in ('script', 'profile'):
            self.rows.append(Row(event.number, event.lines))
        else:
            node = 'server' if words == ['promote'] else words[1] if len(words) > 1 and words[0] != 'client' else ''
            self.rows.append(Row(event.number, event.lines, node=node))
            method = getattr(self, 'on_' + words[0], None)
            if method is None:
                raise Strange(f'no such event: {first!r}')
            # A `run` that is not at its end has begun all the same.
            refused = self.next() in REFUSALS and (words[0], self.next()) != ('run', 'not at end')
            if refused and words[0] not in NEVER_REFUSED:
                self.take()
            else:
                try:
                    method(self.clients.get(node, self.server), words)
                except Halted:
                    pass
        self.close()

    def on_client(self, _, words):
        self.clients[words[1]] = Node(words[1])
        self.halts(self.clients[words[1]])
        self.take('client ')

    def on_connect(self, client, _):
        client.up = True
        self.take('connect ')

    def on_disconnect(self, client, _):
        client.up = False
        client.all_second()
        self.take('disconnect ')

    def on_lose(self, client, words):
        client.loss = words[2]
        self.take('lose ')

    def on_stop(self, _, __):
        self.take('stop ')

    def on_crash(self, node, _):
        node.alive = False
        self.mark('crash', node.name)
        self.take('crash ')

    def on_restart(self, node, _):
        if self.comes_back(node, f'restart {node.name}'):
            self.cut(node)

    def on_promote(self, server, _):
        self.home = 'backup'
        self.mark('promote', server.name)
        self.comes_back(server, 'promote')

    def comes_back(self, node, line):
        """Whether it comes back, which this line says, and does not stop again. What was in doubt is kept or lost then."""
        if self.next() == f'{node.name} stopped':
            self.stop(node, node.doubt)
            return False
        node.alive = True
        self.mark('restart', node.name)
        word = self.take(line).split()[-1]
        doubt, node.doubt = node.doubt, nothing_more
        doubt(word == 'kept')
        return True

    def cut(self, node):
        """What ran on a client that has come back waits."""
        for run in list(node.running):
            self.halts(node, lambda kept, run=run: kept and node.wait(run))
            self.take(f'cut {node.name}.{run.number} ')
            node.wait(run)

    def on_hoard(self, client, words):
        self.ask(client, words[0], ' '.join(words))

    def on_refresh(self, client, words):
        self.ask(client, words[0], ' '.join(words))

    def on_walk(self, client, words):
        self.ask(client, words[0], f'walk {client.name} ')

    def on_begin(self, client, words):
        first = not client.queue and self.exchange(client, 'refresh') == 'both'
        self.halts(client, lambda _: self.named_next(client, client.last + 1).startswith('cut ') and client.begin(words[3]))
        run = client.begin(words[3], first)
        self.take(f'begin {client.name}.{run.number} {words[2]} {"first" if first else "second"}')

    def on_step(self, client, words):
        run = client.meant(words[3] if len(words) > 3 else '')
        client.yields(run)
        while self.next().startswith('fetch '):
            self.row(client.name)
            arrived = self.exchange(client, 'fetch') == 'both'
            line = self.take()
            if line.endswith(' away') == arrived:
                raise Strange(f'line {self.at} of the output: the link says otherwise: {line!r}')
        self.row(client.name)
        self.halts(client)
        self.take(f'step {client.name}.{run.number} ')

    def on_end(self, client, words):
        self.end(client, client.meant(words[2] if len(words) > 2 else ''))

    def on_sync(self, client, _):
        self.sync(client)

    def on_drain(self, client, _):
        some = self.syncs(client)
        if not client.queue and not client.running and client.up:
            self.ask(client, 'refresh', f'refresh {client.name}')
        elif not some:
            self.take('nothing')

    def on_run(self, client, words):
        if client.up:
            self.syncs(client)
        self.row(client.name)
        first = not client.queue and self.exchange(client, 'refresh') == 'both'
        self.halts(client, lambda kept: self.ran(client, words[3], kept))
        run = client.begin(words[3], first)
        if self.next() == 'not at end':
            self.take()
        else:
            self.end(client, run)

    def on_repair(self, client, _):
        self.halts(client, lambda kept: kept and client.queue[0].repair())
        client.queue[0].repair()
        self.take('repair ')

    def on_discard(self, client, _):
        self.halts(client, lambda kept: kept and self.give_up(client))
        self.give_up(client)
        self.take('discard ')

    def on_show(self, _, __):
        self.take('dir /')
        while self.next().startswith(('dir /', 'file /')) and self.next().split()[1] != '/':
            self.take()

    def on_queue(self, client, _):
        for item in client.queue:
            self.take(f'item {client.name}.{item.number} ')
        for run in client.running:
            self.take(f'running {client.name}.{run.number} ')
        if not client.queue and not client.running:
            self.take('empty')

    def on_reads(self, _, __):
        self.numbered('read')

    def on_log(self, _, __):
        self.numbered('log')

    def numbered(self, word):
        """Lines that are counted from 1, or `empty`."""
        number = 1
        while self.next().startswith(f'{word} {number} '):
            self.take()
            number += 1
        if number == 1:
            self.take('empty')

    # ---- what several events do

    def exchange(self, client, what):
        """A request and its reply, as far as the link lets them."""
        if not client.up:
            passage = 'away'
        elif client.loss == 'request' or not self.server.alive:
            passage = 'request'
        else:
            passage = client.loss or 'both'
        if passage in ('request', 'reply'):
            client.up, client.loss = False, ''
        if passage in ('both', 'reply') and self.next() == 'server stopped':
            passage, client.up, client.loss = 'stopped', False, ''
            self.stop(self.server, lambda kept: kept and self.commit_kept())
        if passage != 'both':
            client.all_second()
        if passage != 'away':
            self.rows[-1].exchange = (client.name, what, passage)
        return passage

    def commit_kept(self):
        """What the server says of the commit that it has kept."""
        self.row('server')
        self.commit()

    def named_next(self, client, number):
        """The next line that names this transaction of the client, if one does."""
        name = re.escape(f'{client.name}.{number}')
        return next((line for line in self.lines[self.at:] if re.search(rf'(?<!\S){name}(?!\S)', line)), '')

    def ran(self, client, option, kept):
        """What is left of a `run` in which the client has stopped. If that is not said now, it is where its transaction is named next."""
        later = self.named_next(client, client.last + 1)
        if later.startswith('cut '):
            client.begin(option)
        elif kept and later and not later.startswith(('begin ', 'end ')):
            client.wait(client.begin(option))

    def ask(self, client, what, line):
        self.row(client.name)
        arrived = self.exchange(client, what) == 'both'
        if arrived:
            self.halts(client)
        self.take(line if arrived else 'away')

    def end(self, client, run):
        """It waits, or starts again."""
        tid = f'{client.name}.{run.number}'
        client.yields(run)
        self.halts(client, lambda kept: kept and not self.named_next(client, run.number).startswith('cut ') and client.wait(run))
        if self.next().startswith(f'again {tid} '):
            self.take()
            run.again += 1
            return
        self.take(f'end {tid}')
        first = run.first
        client.wait(run)
        if not first or self.sync(client) == 'away':
            self.take(f'pending {tid}')
            self.output()

    def output(self):
        while self.next().startswith('|'):
            self.take()

    def syncs(self, client):
        """The syncs of a `drain`; whether there were any."""
        times = 3 * len(client.queue)
        for _ in range(times):
            if not client.queue or self.sync(client) != 'on':
                break
        return times > 0

    def sync(self, client):
        self.row(client.name)
        head = client.queue[0]
        tid = f'{client.name}.{head.number}'
        if head.stage == 'manual':
            self.take(f'manual {tid}')
            return 'manual'
        if head.stage == 'conflict':
            return self.resolve(client, head, tid)
        return self.submit(client, head, tid)

    def resolve(self, client, head, tid):
        if self.exchange(client, 'whole tree') != 'both':
            self.take('away')
            return 'away'
        self.halts(client, lambda kept: kept and setattr(head, 'stage', 'resolved'))
        head.stage = 'resolved'
        self.take(f'resolve {tid} ')
        return 'on'

    def submit(self, client, head, tid):
        passage = self.exchange(client, 'submit')
        if passage in ('both', 'reply') and self.next().startswith('commit '):
            self.commit()
        if passage != 'both':
            self.take('away')
            return 'away'
        self.halts(client, lambda kept: kept and self.judged(client, head, tid))
        if self.next().startswith('settled '):
            self.take(f'settled {tid} ')
            client.queue.pop(0)
            return 'on'
        self.mark('conflict', client.name)
        self.take(f'conflict {tid} ')
        if head.option in ('abort', 'manual'):
            self.take(f'{head.option} {tid}')
        self.judged(client, head, tid)
        return 'manual' if head.option == 'manual' else 'on'

    def judged(self, client, head, tid):
        """What the client has noted of the reply to a submission."""
        if tid in self.listed:
            client.queue.pop(0)
        elif head.option == 'abort':
            self.give_up(client)
        else:
            head.stage = 'manual' if head.option == 'manual' else 'conflict'

    def give_up(self, client):
        self.mark('given up', client.name, str(client.queue.pop(0).slot))
