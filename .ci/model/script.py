"""The replay of a script: documents are taken from an input piece by piece, and the commands of each are done as soon
as it is complete; the lines of each command go out in one write, and the summary in one."""

from functools import lru_cache

import journal
from checkpoint import Failed, NotAJournal
from documents import NoCommand, Prepare, Reopen, Together, Unprepare, asked_by, read_json
from jobs import History, HistoryFull, Job
from kubelet import Kubelet

BLANKS = b" \t\r\n"
MOST_BYTES = 2_097_152
MOST_INPUT = 2**30


class Ended(Exception):
    """A replay's end by another status than 0: the number, the word and what the word is of."""


class ReadFailed(Exception):
    """A read of the input failed."""


class WriteFailed(Exception):
    """A write of the output failed."""


class Input:
    """Bytes in memory. A read returns at most that many of them, and the read of the number `failing` fails."""

    def __init__(self, content, piece, failing):
        self.content = content
        self.piece = max(piece, 1)
        self.failing = failing
        self.reads = 0
        self.taken = 0
        self.faults = 0

    def read(self):
        self.reads += 1
        if self.reads == self.failing:
            self.faults += 1
            raise ReadFailed
        part = self.content[self.taken : self.taken + self.piece]
        self.taken += len(part)
        return part

    def read_all(self):
        """How many bytes were left."""
        count = 0
        while part := self.read():
            count += len(part)
        return count


class Output:
    """What was written. A write takes at most that many bytes, and the write of the number `failing` fails."""

    def __init__(self, takes, failing):
        self.takes = takes
        self.failing = failing
        self.writes = 0
        self.faults = 0
        self.content = b""

    def write_all(self, text):
        rest = text.encode()
        while rest:
            self.writes += 1
            if self.writes == self.failing:
                self.faults += 1
                raise WriteFailed
            part = rest if self.takes is None else rest[: max(self.takes, 1)]
            self.content += part
            rest = rest[len(part) :]


def documents(source):
    """The documents of an input with their offsets. A document begins with `{` and ends at the brace that closes it:
    the first at which, outside strings, there are as many `}` as `{`. In a string a backslash escapes the next byte."""
    content = b""
    at = 0
    start = None
    depth = 0
    in_string = escaped = False
    while True:
        if at == len(content):
            part = source.read()
            if not part:
                break
            content += part
        if at == MOST_INPUT:
            raise Ended(8, "limit", MOST_INPUT)
        byte = content[at : at + 1]
        at += 1
        if start is None:
            if byte in BLANKS:
                continue
            if byte != b"{":
                raise Ended(3, "document", at - 1)
            start = at - 1
        if at - start > MOST_BYTES:
            raise Ended(3, "document", start)
        if in_string:
            in_string = escaped or byte != b'"'
            escaped = not escaped and byte == b"\\"
            continue
        in_string = byte == b'"'
        depth += {b"{": 1, b"}": -1}.get(byte, 0)
        if depth == 0:
            yield start, content[start:at]
            start = None
    if start is not None:
        raise Ended(3, "document", start)


@lru_cache(maxsize=None)
def commands(document):
    """What a document asks for, or None if it is no command."""
    try:
        return asked_by(read_json(document))
    except NoCommand:
        return None


class Workers:
    """How many workers do the commands of a Together, and the two jobs of which `until` waits where it has searched until
    `held` has, or has reserved, and `held` there until `until` has ended. `in_vain` says that one waited in vain."""

    def __init__(self, count=1, held=0, reserved=False, until=0):
        self.count = count
        self.held = held
        self.reserved = reserved
        self.until = until
        self.in_vain = False

    def order(self, jobs):
        """The jobs in the order in which one after another runs to its end, and the one that is held before, where that is
        determined: by one worker, or for two jobs of two workers of which one is held."""
        if self.count == 1 or len(jobs) == 1:
            return jobs, None
        held, until = sorted(jobs, key=lambda job: job.number != self.held)
        if (held.number, until.number) != (self.held, self.until):
            raise ValueError("the order of these jobs isn't determined")
        return [until, held], held

    def run(self, history, jobs):
        """Runs the jobs to their ends, and says whether one met the limit of entries."""
        jobs, first = self.order(jobs)
        if first:
            first.step(history)
        if first and self.reserved:
            first.step(history)
        return any([self.runs_full(history, job, jobs) for job in jobs])

    def runs_full(self, history, job, jobs):
        """Runs a job to its end, and says whether it met the limit of entries."""
        waits = job.number == self.held and not any(other.end for other in jobs if other.number == self.until)
        try:
            job.run(history)
        except HistoryFull:
            return True
        finally:
            self.in_vain |= waits and job.has_searched
        return False


def do_commands(history, workers, jobs, output):
    """Does commands beside each other, and writes their lines, also where one met the limit of entries."""
    before = len(history.lines)
    full = workers.run(history, jobs)
    output.write_all("".join(history.lines[before:]))
    if full:
        raise Ended(8, "limit", len(history.lines))


def do_asked(history, workers, asked, number, how, output, kubelet):
    """Does a command, whose number comes after this one, or a Together, and returns the last number."""
    if isinstance(asked, (Prepare, Unprepare, Reopen)):
        lines = kubelet.lines(number + 1, asked, history.state)
        output.write_all("".join(journal.clean(line) + "\n" for line in lines))
        return number + 1
    members = asked.commands if isinstance(asked, Together) else [asked]
    do_commands(history, workers, [Job(number + i, member, *how) for i, member in enumerate(members, 1)], output)
    return number + len(members)


def replay_all(source, output, workers, how, entries, kubelet):
    """Does all commands of a script, each as the job of its number or by the kubelet, and writes the summary."""
    history = History(entries)
    number = 0
    for at, document in documents(source):
        found = commands(document)
        if found is None:
            raise Ended(3, "document", at)
        for asked in found:
            number = do_asked(history, workers, asked, number, how, output, kubelet)
    output.write_all(history.summary(number))


def replay(source, output, budget, attempts, entries, workers=None, kubelet=None):
    """Replays a script, and returns the text of the status."""
    try:
        replay_all(source, output, workers or Workers(), (budget, attempts), entries, kubelet or Kubelet(""))
    except Ended as end:
        return " ".join(map(str, end.args))
    except ReadFailed:
        return "5 read"
    except WriteFailed:
        return "6 write"
    except Failed:
        return "7 disk"
    except NotAJournal as found:
        return f"10 checkpoint {found.offset}"
    return "0 done"
