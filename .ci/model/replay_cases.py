"""Reads the cases of scripts that are replayed, and prints how each ends. The head of crates/replay_cases/stdin says
what a case may be.

usage: python3 .ci/model/replay_cases.py < crates/replay_cases/stdin
"""

import sys

from checkpoint import BEGUN, MAGIC, OPEN, Journal, NotAJournal, PlainDisk, Record, body_of, framed, new_file
from checkpoint_cases import PICKS, listed
from containers import Container, print_case
from kubelet import HALF, Driver, KeptDisk, Kubelet, NodeDisk, uid_text
from script import Input, Output, ReadFailed, Workers, replay

PLAIN = {
    "workers": 1,
    "entries": 10**6,
    "budget": 100_000,
    "attempts": 32,
    "pieces": 65_536,
    "takes": None,
    "fail-read": 0,
    "fail-write": 0,
    "node": 0,
    "fail-disk": 0,
    "fail-driver": 0,
    "found": 0,
    "half": 0,
    "held": 0,
    "reserved": 0,
    "until": 0,
    "turns": 100_000_000,
}


# Checkpoints as they are found, of version 1: one without records, and one that has begun a claim for a pod; and a file of
# another program. The version is 0, and a gate is open before a record and closed behind the last.
HEADER = MAGIC + bytes(5)
OLD_EMPTY = HEADER + b"\0"
BEGINS = Record(BEGUN, uid_text(5), "default/c", ("default/p",), ("gpu.example.com/n2/gpu-0",))
OLD = HEADER + bytes([OPEN]) + framed(body_of(BEGINS)) + b"\0"
OTHER = b"SQLite format 3\0"


def found_bytes(options):
    """The bytes of the checkpoint as it is found."""
    if options["half"]:
        return new_file(options["half"])
    found = options["found"]
    if found == 1:
        return OLD_EMPTY
    return OLD[:found] if found <= len(OLD) else OTHER


def node_text(status, disk, driver, found):
    """The driver's calls and the bytes on the disk, where the disk isn't left as it was found and didn't fail."""
    if status == "7 disk" or (len(disk.data) == len(found) and not driver.calls):
        return ""
    return f", driver {''.join(driver.calls) or '-'}, disk {len(disk.data)}"


class Outcome:
    """How a replay ended."""

    def __init__(self, script, options, kept=False):
        source = Input(script, options["pieces"], options["fail-read"])
        output = Output(options["takes"], options["fail-write"])
        workers = Workers(options["workers"], options["held"], options["reserved"] != 0, options["until"])
        found = found_bytes(options)
        disk = self.disk = (KeptDisk if kept else NodeDisk)(found, options["fail-disk"])
        driver = Driver(options["fail-driver"])
        kubelet = Kubelet(f"n{options['node']}" if options["node"] else "", disk, driver)
        status = replay(source, output, options["budget"], options["attempts"], options["entries"], workers, kubelet)
        self.reads = source.reads
        self.writes = output.writes
        waited = ", waited in vain" if workers.in_vain else ""
        node = node_text(status, disk, driver, found)
        self.head = f"{status}, faults {source.faults} {output.faults}{waited}{node}".encode()
        self.left = left_in(source).encode()
        self.content = output.content

    def whole(self):
        return self.head + b", left " + self.left + b"\n" + self.content

    def in_short(self, other):
        """The outcome on one line: how many leading lines the output shares with another, and the rest of it."""
        lines = 0
        end = 0
        for line, same in zip(self.content.splitlines(True), other.splitlines(True)):
            if line != same or not line.endswith(b"\n"):
                break
            lines += 1
            end += len(line)
        rest = self.content[end:].replace(b"\n", b";")
        return self.head + b", lines %d" % lines + (b" then " + rest if rest else b"")


def left_in(source):
    """How many bytes no read had returned, which are read at the end, once more if that fails."""
    try:
        return str(source.read_all())
    except ReadFailed:
        return f"{source.read_all()} behind a fault"


def report(outcomes):
    """Numbered outcomes, of which equal ones in a row share one line."""
    rows = []
    for number, said in outcomes:
        if rows and rows[-1][2] == said:
            rows[-1][1] = number
        else:
            rows.append([number, number, said])
    return b"".join(b"%d..%d: %s\n" % tuple(row) for row in rows)


def varied(verb, script, options):
    """The scripts and the options of the runs of a case that varies one of them, by number."""
    if verb == "cuts":
        return [(length, script[:length], options) for length in range(len(script) + 1)]
    plain = Outcome(script, {**options, "fail-disk": 0})
    name, numbers = {
        "pieces": ("pieces", range(1, options["pieces"] + 1)),
        "read-faults": ("fail-read", range(1, plain.reads + 2)),
        "write-faults": ("fail-write", range(1, plain.writes + 2)),
        "disk-faults": ("fail-disk", range(1, options["fail-disk"] + 1)),
        "limits": ("entries", range(options["entries"] + 1)),
    }[verb]
    return [(number, script, {**options, name: number}) for number in numbers]


def table_in(data):
    """The table of a checkpoint, or that there is none."""
    try:
        return listed(Journal(PlainDisk(data), HALF).rows).encode()
    except NotAJournal:
        return b"no checkpoint"


def crashes(script, options):
    """The tables that a crash leaves at each moment of a run, each in eight ways, which are numbered."""
    moments = Outcome(script, options, kept=True).disk.moments
    images = (moment.image(pick) for moment in moments for pick in range(PICKS))
    return [(number, table_in(image)) for number, image in enumerate(images)]


def case(line, scripts):
    """What a case prints."""
    verb, *words = line.split(" ")
    count = 2 if verb == "each" else 1
    named = [scripts[name] for name in words[:count]]
    options = {**PLAIN, **{name: int(number) for name, number in (word.split("=") for word in words[count:])}}
    if verb == "run":
        return Outcome(named[0], options).whole()
    if verb == "crashes":
        return report(crashes(named[0], options))
    other = Outcome(named[0], {**options, "fail-disk": 0}).content
    if verb == "each":
        lines = named[1].removesuffix(b"\n").split(b"\n") if named[1] else []
        runs = [(number, named[0] + last, options) for number, last in enumerate(lines, 1)]
    else:
        runs = varied(verb, named[0], options)
    return report((number, Outcome(script, with_options).in_short(other)) for number, script, with_options in runs)


def main():
    container = Container(sys.stdin.buffer.read(), "script")
    for line in container.cases():
        print_case(line, case, container.parts)


if __name__ == "__main__":
    main()
