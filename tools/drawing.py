"""The picture of a day, as SVG: what was asked on the left, the lanes, and what was printed on the right."""

from itertools import groupby
from xml.sax.saxutils import escape

from transcript import kind

# Lengths are in pixels. A line of text, a letter of it, one of a lane's name, one of a number at the left, the way from lane to lane, that
# from the server to its backup, and that from one waiting transaction to the next.
LINE = 16
CHAR = 7.3
NAME_CHAR = 7.9
NUMBER_CHAR = 6.1
GAP = 130
BACKUP_GAP = 90
SLOT = 17
EDGE = 16
# How many lines of a script or of what an event prints are shown, and how many letters of a line.
MOST = 8
LETTERS = 100

# In the light and in the dark: the ground, two pale ones that bear no text, and the colours of what stands on the ground. What is written
# on one of those has the ground's colour.
LIGHT = {'ground': '#ffffff', 'pale': '#eef1f4', 'fault': '#fbe9e7', 'ink': '#1f2a33', 'grey': '#5c6873', 'lane': '#34495e',
         'red': '#c0392b', 'green': '#1b7a40', 'amber': '#966000', 'violet': '#7d3c98', 'blue': '#2471a3'}
DARK = {'ground': '#161b22', 'pale': '#2b333d', 'fault': '#47241f', 'ink': '#e3e9ef', 'grey': '#9aa7b4', 'lane': '#93aac2',
        'red': '#ff8577', 'green': '#5cc98a', 'amber': '#e5a93c', 'violet': '#cf9be6', 'blue': '#76b7ec'}
STAGES = {'waiting': 'amber', 'conflict': 'red', 'manual': 'violet', 'resolved': 'blue'}
KINDS = {'commit': 'green', 'settled': 'green', 'conflict': 'red', 'abort': 'red', 'away': 'red', 'crash': 'red', 'stopped': 'red',
         'cut': 'red', 'again': 'red', 'pending': 'amber', 'manual': 'violet', 'resolve': 'blue', 'output': 'grey', 'dir': 'grey', 'file': 'grey',
         '..': 'grey'}
KEY = [('up', 'connected'), ('away', 'link down'), ('down', 'crashed'), ('runs', 'runs'), ('waiting', 'waits'),
       ('conflict', 'in conflict'), ('manual', 'waits for a decision'), ('resolved', 'resolved'), ('commit', 'commit'),
       ('lost', 'lost, or given up')]
KEY_WIDTHS = [len(words) * 6.2 + 40 for _, words in KEY]
FONTS = '''text { font: 12px "DejaVu Sans Mono", Menlo, Consolas, monospace }
.caption { font: italic 13px "DejaVu Sans", Helvetica, Arial, sans-serif }
.name { font: bold 13px "DejaVu Sans Mono", Menlo, Consolas, monospace; text-anchor: middle }
.place { font: 10px "DejaVu Sans Mono", Menlo, Consolas, monospace; text-anchor: end }
.small { font: 10px "DejaVu Sans", Helvetica, Arial, sans-serif; text-anchor: middle }
.number { font: bold 10px "DejaVu Sans", Helvetica, Arial, sans-serif; text-anchor: middle }
.key { font: 11px "DejaVu Sans", Helvetica, Arial, sans-serif }'''


def rules(colours):
    """The classes of what is filled with a colour, and of lines in it."""
    return '\n'.join(f'.{name} {{ fill: {colour} }} .{name}-line {{ stroke: {colour} }}' for name, colour in colours.items())


STYLE = f'{FONTS}\n{rules(LIGHT)}\n@media (prefers-color-scheme: dark) {{\n{rules(DARK)}\n}}'


# ---- SVG

def shown(value):
    return f'{value:.1f}'.removesuffix('.0') if isinstance(value, (int, float)) else value


def tag(name, content=None, **attributes):
    pairs = ''.join(f' {key.rstrip("_").replace("_", "-")}="{shown(value)}"' for key, value in attributes.items())
    return f'<{name}{pairs}/>' if content is None else f'<{name}{pairs}>{escape(content)}</{name}>'


def text(x, y, content, look='ink'):
    return tag('text', content, x=x, y=y, class_=look)


def line(x, y, to_x, to_y, colour, width, **more):
    return tag('line', x1=x, y1=y, x2=to_x, y2=to_y, class_=f'{colour}-line', stroke_width=width, **more)


def box(x, y, width, height, look, **more):
    """A box around the vertical at x."""
    return tag('rect', x=x - width / 2, y=y, width=width, height=height, class_=look, rx=3, **more)


def polygon(points, look):
    return tag('polygon', points=' '.join(f'{shown(x)},{shown(y)}' for x, y in points), class_=look)


def circle(x, y, radius, look, **more):
    return tag('circle', cx=x, cy=y, r=radius, class_=look, **more)


def cross(x, y, size):
    return line(x - size, y - size, x + size, y + size, 'red', 2.5) + line(x - size, y + size, x + size, y - size, 'red', 2.5)


def arrow(x, y, to_x, to_y):
    back = 8 if to_x > x else -8
    head = [(to_x, to_y), (to_x - back, to_y - 4), (to_x - back, to_y + 3.5)]
    return line(x, y, to_x - back / 2, to_y, 'ink', 1.4) + polygon(head, 'ink')


def broken(x, y, to_x, to_y):
    """An arrow that gets no farther than this."""
    return line(x, y, to_x, to_y, 'ink', 1.4) + cross(to_x, to_y, 4)


# ---- lines of text, and rows of states

def cut(words, most=LETTERS):
    return words if len(words) <= most else words[:most - 2] + '..'


def shortened(lines):
    few = lines if len(lines) <= MOST else lines[:MOST - 1] + [f'.. {len(lines) - MOST + 1} more lines']
    return [cut(words) for words in few]


def name_of_script(asked):
    """What is left of a script without its text; of another event it is everything."""
    return [' '.join(asked[0].split()[:2])] if len(asked) > 1 else asked


def wrapped(words, width):
    lines = ['']
    for word in words.split():
        if lines[-1] and len(lines[-1]) + 1 + len(word) > width:
            lines.append('')
        lines[-1] += f' {word}' if lines[-1] else cut(word, width)
    return lines


def longest(blocks):
    return max((len(words) for lines in blocks for words in lines), default=0)


def name_width(name):
    """The width of the box with a lane's name."""
    return len(name) * NAME_CHAR + 16


def arrival(row, name):
    """How far below the top of its row something happens to a node: where the request arrives at the server, or the reply at a client."""
    return (7 if name in ('server', 'backup') else 14) if row.exchange else 0


def commit_reach(number):
    return 3.5 * len(number) + 7


def reach(row, name):
    """How far from a node's lane its arrows of this row end: at the sign that stands there, if there is one."""
    signs = {'crash': lambda _: 10, 'conflict': lambda _: 9, 'commit': commit_reach, 'restart': lambda _: 7}
    return max((signs[what](words) for what, node, words in row.marks if node == name and what in signs), default=3)


def stretches(values):
    """The runs of equal values but None: each value with its first index, and that behind its last."""
    at = 0
    for value, group in groupby(values):
        start, at = at, at + len(list(group))
        if value is not None:
            yield value, start, at


class Picture:
    """The picture of a day with this title. Scripts may be left out, but for their names. The server has a second lane, that of its backup,
    on a day that names it."""

    def __init__(self, day, title, scripts=True):
        self.rows, self.title, self.parts = day.rows, title, []
        self.middle, self.last_home = ['server', 'backup'] if day.has_backup else ['server'], day.home
        self.asked = [shortened(row.asked if scripts else name_of_script(row.asked)) for row in day.rows]
        half = (len(day.clients) + 1) // 2
        self.left, self.right = list(day.clients)[:half], list(day.clients)[half:]
        self.place_lanes()
        self.place_rows()

    def draw(self):
        """The picture as a text."""
        width, height = shown(self.width), shown(self.foot + 70)
        self.put(tag('rect', width=width, height=height, class_='ground'))
        for index, row in enumerate(self.rows):
            self.draw_words(index, row)
        for name in self.x:
            self.draw_lane(name, [row.lanes.get(name) for row in self.rows])
        for index, row in enumerate(self.rows):
            self.draw_row(self.top(index), row)
        self.draw_key(self.foot + 50)
        size = f'width="{width}" height="{height}" viewBox="0 0 {width} {height}"'
        head = [f'<svg xmlns="http://www.w3.org/2000/svg" xml:space="preserve" role="img" {size}>', tag('title', self.title),
                tag('desc', self.description()), f'<style>\n{STYLE}\n</style>']
        return '\n'.join([*head, *self.parts, '</svg>', ''])

    def description(self):
        """A line that says what is drawn."""
        nodes = ', '.join(['the server', *(['its backup'] if 'backup' in self.middle else []), *self.left, *self.right])
        return f'A lane for each node ({nodes}), time downwards: on the left what was asked, on the right what was printed.'

    def put(self, *parts):
        self.parts.extend(parts)

    # ---- where everything stands

    def place_lanes(self):
        """The server stands in the middle, and what waits at a client on the side away from it. No name gets into another one."""
        self.asked_at = EDGE + len(str(max((row.number for row in self.rows), default=0))) * NUMBER_CHAR + 8
        self.asked_to = self.asked_at + max(longest(self.asked), 34) * CHAR
        names = [*self.left, *self.middle, *self.right]
        self.x = {names[0]: self.asked_to + max(40 + self.room(names[0]), name_width(names[0]) / 2 + 14)}
        for name, other in zip(names, names[1:]):
            between = self.room(other) if other in self.left else self.room(name) if name in self.right else 0
            gap = BACKUP_GAP if other == 'backup' else GAP + between
            self.x[other] = self.x[name] + max(gap, (name_width(name) + name_width(other)) / 2 + 14)
        self.said_at = self.x[names[-1]] + max(46 + self.room(names[-1]), name_width(names[-1]) / 2 + 14)
        said = longest(shortened(row.said) for row in self.rows)
        self.width = max(self.said_at + said * CHAR, sum(KEY_WIDTHS)) + EDGE

    def room(self, name):
        """The width of what stands beside this client's lane at the same time."""
        beside = [one for row in self.rows if name in row.lanes for ones in row.lanes[name][1:] for one in ones.values()]
        return SLOT * max((slot + 1 for slot, *_ in beside if slot is not None), default=0)

    def place_rows(self):
        self.tops, self.captions = [], []
        y = 46
        for asked, row in zip(self.asked, self.rows):
            caption = wrapped(row.caption, int((self.asked_to - self.asked_at) / CHAR)) if row.caption else []
            self.captions.append(caption)
            self.tops.append(y)
            lines = max(len(asked), len(shortened(row.said)), len(caption), 1)
            y += max(lines * LINE + (16 if caption else 6), 36 if row.exchange else 0)
        self.bottom = y + 4
        self.foot = self.bottom + 8

    def top(self, index):
        return self.tops[index] + 12

    def place(self, row, name):
        """Where a node is in this row."""
        return self.x[row.home if name == 'server' else name]

    def turn(self, name, index):
        """Where a lane gets the look that it has after a row; behind the last row it is where the rows end."""
        return self.top(index) + arrival(self.rows[index], name) if index < len(self.rows) else self.bottom

    def slot(self, name, slot):
        return self.x[name] + (-1 if name in self.left else 1) * (24 + int(slot) * SLOT)

    # ---- words

    def draw_words(self, index, row):
        top = self.tops[index]
        if row.asked:
            self.put(line(EDGE, top - 1, self.width - EDGE, top - 1, 'pale', 1))
            self.put(text(self.asked_at - 8, top + 15.5, str(row.number), 'grey place'))
        for place, words in enumerate(self.captions[index]):
            self.put(text(self.asked_at, top + 21 + place * LINE, words, 'ink caption'))
        for place, words in enumerate(self.asked[index]):
            self.put(text(self.asked_at, top + 16 + place * LINE, words, 'grey' if len(row.asked) > 1 else 'ink'))
        for place, (words, whole) in enumerate(zip(shortened(row.said), row.said)):
            look = KINDS.get(kind(words if words.startswith('..') else whole), 'ink')
            self.put(text(self.said_at, top + 16 + place * LINE, words, look))

    # ---- lanes

    def draw_lane(self, name, lanes):
        x = self.x[name]
        declared = next(index for index, lane in enumerate(lanes) if lane)
        self.draw_state(x, 34, self.turn(name, declared), 'none' if declared else 'copy' if name == 'backup' else 'up')
        states = list(stretches([lane and lane[0] for lane in lanes]))
        for state, start, end in states:
            self.draw_state(x, self.turn(name, start), self.turn(name, end) if end < len(lanes) else self.foot, state)
        for number in dict.fromkeys(number for lane in lanes if lane for number in lane[1]):
            self.draw_running(name, number, [lane[1].get(number) if lane else None for lane in lanes])
        for state, start, end in states:
            if state == 'down':
                self.draw_stop(x, self.turn(name, start), self.turn(name, end))
        for number in dict.fromkeys(number for lane in lanes if lane for number in lane[2]):
            self.draw_waiting(name, number, [lane[2].get(number) if lane else None for lane in lanes])
        self.draw_name(name, 10, name == 'server')
        self.draw_name(name, self.foot, name == self.last_home)

    def draw_name(self, name, y, is_home):
        """The name of a lane, dark where the server is."""
        x = self.x[name]
        look, ink = ('lane lane-line', 'ground name') if is_home else ('ground lane-line', 'ink name')
        self.put(box(x, y, name_width(name), 24, look, stroke_width=1.5), text(x, y + 17, name, ink))

    def draw_state(self, x, y, to_y, state):
        if state == 'up':
            self.put(line(x, y, x, to_y, 'lane', 3))
        elif state == 'away':
            self.put(box(x, y, 24, to_y - y, 'pale'), line(x, y, x, to_y, 'grey', 2.5, stroke_dasharray='5 4'))
        elif state == 'copy':
            self.put(line(x, y, x, to_y, 'grey', 1.5))
        elif state == 'none':
            self.put(line(x, y, x, to_y, 'pale', 3))
        else:
            self.put(box(x, y, 24, to_y - y, 'fault'))

    def draw_stop(self, x, y, to_y):
        self.put(line(x, y, x, to_y, 'red', 2, stroke_dasharray='1.5 5'))

    def draw_running(self, name, number, runs):
        """A box on the lane, or beside it if another one runs there; one that starts again has another box from then on."""
        for (slot, first, _), start, end in stretches(runs):
            x, width = (self.x[name], 18) if slot is None else (self.slot(name, slot), 14)
            self.draw_run(x, self.turn(name, start), self.turn(name, end), number, first, width)

    def draw_run(self, x, y, to_y, number, first, width=18):
        dashes = {} if first == 'first' else {'stroke_dasharray': '3 2'}
        self.put(box(x, y, width, max(to_y - y, 14), 'ground lane-line', stroke_width=1.5, **dashes))
        self.put(text(x, y + 14.5, number, 'lane number'))

    def draw_waiting(self, name, number, items):
        begun = False
        for (slot, stage), start, end in stretches(items):
            x, y = self.slot(name, slot), self.turn(name, start)
            self.put(box(x, y, 14, max(self.turn(name, end) - y, 14), STAGES[stage]))
            if not begun:
                self.put(text(x, y + 11, number, 'ground number'))
            begun = True

    # ---- what happens in a row

    def draw_row(self, top, row):
        if row.exchange:
            self.draw_exchange(top, row, *row.exchange)
        elif row.node:
            self.put(circle(self.place(row, row.node), top, 4, 'lane'))
        for what, node, words in row.marks:
            x, y = self.place(row, node), top + arrival(row, node)
            if what == 'given up':
                self.put(cross(self.slot(node, words), y, 5))
            elif what == 'commit':
                self.draw_commit(x, y, words)
            elif what == 'conflict':
                self.draw_conflict(x, y)
            elif what == 'crash':
                self.put(circle(x, y, 9, 'ground'), cross(x, y, 6))
            elif what == 'promote':
                self.put(arrow(self.x['server'] + 3, y, x - reach(row, node), y))
            elif what == 'restart':
                self.put(circle(x, y, 6, 'ground green-line', stroke_width=2.5))

    def draw_exchange(self, y, row, name, what, passage):
        side = 1 if name in self.left else -1
        start = self.x[name] + 3 * side
        back = self.x[name] + reach(row, name) * side
        server = self.place(row, 'server') - reach(row, 'server') * side
        nearest, middle = (self.left[-1], self.middle[0]) if name in self.left else (self.right[0], self.middle[-1])
        label = (self.x[nearest] + self.x[middle]) / 2
        self.put(text(label, y - 1, what, 'grey small'))
        if passage == 'request':
            self.put(broken(start, y, label, y + 4))
            return
        self.put(arrow(start, y, server, y + 7))
        if passage == 'reply':
            self.put(broken(server, y + 7, label, y + 11))
        elif passage == 'both':
            self.put(arrow(server, y + 7, back, y + 14))

    def draw_commit(self, x, y, number):
        reached = commit_reach(number)
        self.put(tag('rect', x=x - reached, y=y - 10, width=2 * reached, height=20, rx=10, class_='green'))
        self.put(text(x, y + 4, number, 'ground number'))

    def draw_conflict(self, x, y):
        self.put(polygon([(x, y - 9), (x + 9, y), (x, y + 9), (x - 9, y)], 'red'), text(x, y + 4, '!', 'ground number'))

    # ---- what the signs mean

    def draw_key(self, y):
        x = EDGE
        for (what, words), width in zip(KEY, KEY_WIDTHS):
            if what in ('up', 'away', 'down'):
                self.draw_state(x + 8, y - 12, y + 6, what)
                if what == 'down':
                    self.draw_stop(x + 8, y - 12, y + 6)
            elif what == 'runs':
                self.draw_run(x + 8, y - 11, y + 5, '', 'first')
            elif what == 'commit':
                self.draw_commit(x + 6, y - 3, '1')
            elif what == 'lost':
                self.put(cross(x + 10, y - 3, 4.5))
            else:
                self.put(box(x + 8, y - 11, 14, 16, STAGES[what]))
            self.put(text(x + 22, y + 1, words, 'ink key'))
            x += width
