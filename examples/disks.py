"""What is known of the two disks of the server by what was asked of them: which records stand on each, and which calls fail."""

DISKS = ('server', 'backup')

# How many device calls a record takes. The last two of them open its gate.
RECORD, OPENING = 4, 2

# The picks that leave a gate open that was written and not synced: what was written, and the byte that opens a gate.
OPEN_PICKS = ('new', '165')


class Disks:
    """The disks of a server: the one that it is started from, those that have failed and were not read since, the call of each that is to
    fail, with its pick, and whether each has the last record, as far as that is in doubt."""

    def __init__(self):
        self.home, self.failed, self.armed = 'server', set(), {}
        self.in_doubt, self.has = False, dict.fromkeys(DISKS, False)

    def used(self):
        """Those that the server writes to: both until the backup is promoted."""
        return DISKS if self.home == 'server' else DISKS[1:]

    def arm(self, disk, call, pick):
        self.armed[disk if self.home == 'server' else 'backup'] = [int(call), pick]

    def fails(self, disk):
        """The pick with which the next call of the disk fails, or nothing if it does not."""
        if disk not in self.armed:
            return ''
        self.armed[disk][0] -= 1
        if self.armed[disk][0] > 0:
            return ''
        self.failed.add(disk)
        return self.armed.pop(disk)[1]

    def append(self, disk):
        """Whether a record is written to the disk. If a call fails, the disk has the record where its gate is open."""
        for call in range(1, RECORD + 1):
            pick = self.fails(disk)
            if pick:
                self.has[disk] = call > RECORD - OPENING and pick in OPEN_PICKS
                return False
        self.has[disk] = True
        return True

    def commit(self, before=0):
        """Whether a commit is written to each disk in turn, once each has made the calls that come before a record. Else it is in doubt."""
        self.has = dict.fromkeys(DISKS, False)
        fails = any(self.fails(disk) for disk in self.used() for _ in range(before))
        self.in_doubt = fails or not all(self.append(disk) for disk in self.used())
        return not self.in_doubt

    def promote(self):
        """The first disk is given up, and what was to come of it."""
        self.home = 'backup'
        self.armed.pop('server', None)

    def start(self):
        """What is said of the record in doubt by a start from the disks, behind the words of the event; or nothing if one of them fails.
        The backup is brought up if it lacks what the first disk has."""
        for disk in self.used():
            self.failed.discard(disk)
            if self.fails(disk):
                return None
        kept = self.in_doubt and self.has[self.home]
        if kept and self.home == 'server' and not self.has['backup'] and not self.append('backup'):
            return None
        said = ' kept' if kept else ' lost' if self.in_doubt else ''
        self.in_doubt = False
        return said
