"""The file of a checkpoint: its two versions, its records, the table that they make, and the journal that writes it.

Written from the description of the format in docs/FORMATS.md. A journal calls its disk as that page says, so what a
crash leaves can be tried at each call.
"""

from collections import namedtuple
from functools import lru_cache

OPEN = 0x5A
MAGIC = b"DRAKCKPT\0\0\0"
HALF_SIZES = [2**power for power in range(12, 28)]
LAST_GATE = 67_108_863
MOST = 65_535
BEGUN, PREPARED, LEAVING, GONE = 1, 2, 3, 4

# A key and a device id are kept in their printed form, and those of a list in a tuple.
Record = namedtuple("Record", "kind uid key pods devices")
Row = namedtuple("Row", "state uid key pods devices")
Found = namedtuple("Found", "version base half second records closed")


class NotAJournal(Exception):
    """The bytes are no journal; the offset says from where on."""

    def __init__(self, offset):
        super().__init__(offset)
        self.offset = offset


class Full(Exception):
    """A record that doesn't fit."""


class Failed(Exception):
    """A call of a disk that failed."""


class NoRecord(Exception):
    """A body that is no record."""


# ---- bodies


def text_bytes(text):
    data = text.encode()
    return len(data).to_bytes(2, "big") + data


def list_bytes(texts):
    return len(texts).to_bytes(2, "big") + b"".join(map(text_bytes, texts))


def body_of(record):
    body = bytes([record.kind]) + text_bytes(record.uid)
    if record.kind in (BEGUN, PREPARED):
        body += text_bytes(record.key) + list_bytes(record.pods) + list_bytes(record.devices)
    return body


def is_long(record):
    lists = [record.pods, record.devices]
    texts = [record.uid, record.key, *record.pods, *record.devices]
    return any(len(text.encode()) > MOST for text in texts) or any(len(items) > MOST for items in lists)


class Body:
    """A body that is read from its first byte on."""

    def __init__(self, data):
        self.data = data

    def take(self, count):
        if len(self.data) < count:
            raise NoRecord
        taken, self.data = self.data[:count], self.data[count:]
        return taken

    def number(self):
        return int.from_bytes(self.take(2), "big")

    def text(self):
        try:
            return self.take(self.number()).decode("utf-8")
        except UnicodeDecodeError as error:
            raise NoRecord from error

    def key(self):
        text = self.text()
        if text.startswith("/"):
            raise NoRecord
        return text

    def device(self):
        text = self.text()
        if text.count("/") < 2:
            raise NoRecord
        return text


def record_of(data):
    body = Body(data)
    kind = body.take(1)[0]
    if kind in (BEGUN, PREPARED):
        uid, key = body.text(), body.key()
        pods = tuple(body.key() for _ in range(body.number()))
        devices = tuple(body.device() for _ in range(body.number()))
        record = Record(kind, uid, key, pods, devices)
    elif kind in (LEAVING, GONE):
        record = Record(kind, body.text(), "", (), ())
    else:
        raise NoRecord
    if body.data:
        raise NoRecord
    return record


# ---- tables


def add(table, record):
    """Does a record to a table, which has its rows by uid, in the order in which they were made."""
    if record.kind in (BEGUN, PREPARED):
        table[record.uid] = Row(record.kind, *record[1:])
    elif record.uid in table and record.kind == LEAVING:
        table[record.uid] = table[record.uid]._replace(state=LEAVING)
    elif record.kind == GONE:
        table.pop(record.uid, None)


def table_of(records):
    """The table that records make."""
    table = {}
    for record in records:
        add(table, record)
    return table


def records_of(row):
    """The records of a row in a compacted table."""
    records = [Record(BEGUN if row.state == BEGUN else PREPARED, *row[1:])]
    if row.state == LEAVING:
        records.append(Record(LEAVING, row.uid, "", (), ()))
    return records


def framed(body):
    return len(body).to_bytes(4, "big") + body


@lru_cache(maxsize=None)
def row_bytes(row):
    """The bytes of a row in a compacted table."""
    return b"".join(bytes([OPEN]) + framed(body_of(record)) for record in records_of(row))


def compacted(rows):
    """The bytes of a compacted table, with the closed gate."""
    return b"".join(map(row_bytes, rows)) + b"\0"


# ---- files


def read_records(part, at):
    """The records of a part of a file that begins at an offset, and the offset of the closed gate."""
    records = []
    place = 0
    while part[place] == OPEN:
        length = int.from_bytes(part[place + 1 : place + 5], "big")
        end = place + 5 + length
        if len(part) < place + 5 or len(part) <= end:
            raise NotAJournal(at + place)
        try:
            records.append(record_of(part[place + 5 : end]))
        except NoRecord:
            raise NotAJournal(at + place) from None
        place = end
    return records, at + place


def read_file(data):
    for at in range(16):
        if at >= len(data) or (at < 11 and data[at] != MAGIC[at]):
            raise NotAJournal(at)
    if data[11] != 2:
        if len(data) < 17:
            raise NotAJournal(16)
        records, closed = read_records(data[16:], 16)
        if closed > LAST_GATE:
            raise NotAJournal(LAST_GATE + 1)
        return Found(1, None, None, None, records, closed)
    base = int.from_bytes(data[12:16], "big")
    if base < 16:
        raise NotAJournal(12)
    if len(data) < base + 4:
        raise NotAJournal(len(data))
    half = int.from_bytes(data[base : base + 4], "big")
    if half not in HALF_SIZES:
        raise NotAJournal(base)
    if len(data) < base + 6 + half:
        raise NotAJournal(len(data))
    second = data[base + 4] == OPEN
    start = base + 5 + (half if second else 0)
    records, closed = read_records(data[start : start + half], start)
    return Found(2, base, half, second, records, closed)


def new_file(half):
    return MAGIC + b"\x02" + (16).to_bytes(4, "big") + half.to_bytes(4, "big") + bytes(1 + half + 1)


def half_for(asked, length):
    return min(half for half in HALF_SIZES if half >= asked and half >= 2 * length)


# ---- disks


class Moment:
    """What a disk has at a moment, and what is sure of it after a crash: at each offset up to the old end a byte, or
    None for any byte; and whether any bytes may follow."""

    def __init__(self, data, sure, longer):
        self.data, self.sure, self.longer = data, sure, longer

    def image(self, pick):
        """The image that `MemDisk` leaves by a pick, as its documentation says: by the remainder by 8 none that was
        written, an open gate, what was written, its complement, the first or the second half of what was written,
        some of what was written, or any byte; past the old end up to as many bytes more as the remainder says."""
        image = [self.chosen(at, pick) if byte is None else byte for at, byte in enumerate(self.sure)]
        if self.longer and pick % 8:
            image += [self.chosen(at, pick) for at in range(len(image), len(self.data) + pick % 8)]
        return bytes(image)

    def chosen(self, at, pick):
        written = self.data[at] if at < len(self.data) else 0
        mixed = (((pick ^ at) * 0x9E3779B97F4A7C15) % 2**64) >> 56
        front = at < len(self.data) // 2
        ways = [0, OPEN, written, 255 - written]
        ways += [written if front else 0, 0 if front else written, written if mixed < 128 else 0, mixed]
        return ways[pick % 8]


class Disk:
    """A disk in memory, whose call of a number fails and does nothing."""

    def __init__(self, data, failing=None):
        self.moments = [Moment(bytes(data), list(data), False)]
        self.calls, self.failing = 0, failing

    @property
    def data(self):
        return self.moments[-1].data

    def call(self):
        self.calls += 1
        if self.calls == self.failing:
            raise Failed

    def read(self):
        """Asks the length, and reads all."""
        self.call()
        self.call()
        return self.data

    def write(self, at, more):
        self.call()
        now = self.moments[-1]
        sure = [None if at <= place < at + len(more) else byte for place, byte in enumerate(now.sure)]
        data = now.data[:at] + more + now.data[at + len(more) :]
        self.moments.append(Moment(data, sure, True))

    def cut(self, length):
        self.call()
        now = self.moments[-1]
        self.moments.append(Moment(now.data[:length], now.sure[:length], True))

    def sync(self):
        self.call()
        self.moments.append(Moment(self.data, list(self.data), False))

    def put(self, at, more):
        self.write(at, more)
        self.sync()


class PlainDisk(Disk):
    """A disk that keeps no earlier moment, and doesn't fail."""

    def __init__(self, data):
        super().__init__(b"")
        self.keep(data)

    def keep(self, data):
        self.moments = [Moment(data, None, False)]

    def write(self, at, more):
        self.keep(self.data[:at] + more + self.data[at + len(more) :])

    def cut(self, length):
        self.keep(self.data[:length])

    def sync(self):
        pass


# ---- journals


def make_file(disk, half):
    disk.put(0, new_file(half))


class Journal:
    """An open journal. A call of its disk that fails raises Failed; after one in an append the journal is closed."""

    def __init__(self, disk, half):
        self.disk = disk
        disk.sync()
        found = read_file(disk.read())
        self.records, self.table = found.records, table_of(found.records)
        if found.version == 1:
            self.move_over(found.closed + 1, half)
        else:
            self.base, self.half, self.second, self.closed = found.base, found.half, found.second, found.closed

    @property
    def rows(self):
        return list(self.table.values())

    def move_over(self, base, asked):
        table = compacted(self.rows)
        half = half_for(asked, len(table))
        self.disk.cut(base)
        self.disk.sync()
        self.disk.put(base, half.to_bytes(4, "big") + b"\0" + table + bytes(half - len(table)) + b"\0")
        self.disk.put(12, base.to_bytes(4, "big"))
        self.disk.put(11, b"\x02")
        self.base, self.half, self.second = base, half, False
        self.closed = base + 5 + len(table) - 1

    def start(self, second):
        return self.base + 5 + (self.half if second else 0)

    def append(self, record):
        body = body_of(record) if not is_long(record) else None
        table = compacted(self.rows)
        if body is None or len(table) + 5 + len(body) > self.half:
            raise Full
        used = self.closed - self.start(self.second) + 1
        if used + 5 + len(body) > self.half:
            self.second = not self.second
            self.disk.put(self.start(self.second), table)
            self.disk.put(self.base + 4, bytes([OPEN if self.second else 0]))
            self.closed = self.start(self.second) + len(table) - 1
        self.disk.put(self.closed + 1, framed(body) + b"\0")
        self.disk.put(self.closed, bytes([OPEN]))
        self.closed += 5 + len(body)
        add(self.table, record)

    def used(self):
        return self.closed - self.start(self.second) + 1
