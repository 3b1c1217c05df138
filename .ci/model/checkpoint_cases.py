"""Reads the cases of the checkpoint, and prints what each has to print. The head of crates/checkpoint_cases/stdin says
what a case may be.

usage: python3 .ci/model/checkpoint_cases.py < crates/checkpoint_cases/stdin
"""

import sys

from checkpoint import (
    BEGUN,
    GONE,
    LEAVING,
    PREPARED,
    Disk,
    Failed,
    Full,
    Journal,
    NotAJournal,
    PlainDisk,
    Record,
    make_file,
    new_file,
    table_of,
)

WORDS = {BEGUN: "begun", PREPARED: "prepared", LEAVING: "leaving", GONE: "gone"}
PICKS = 8


def from_hex(word):
    parts = [part.partition("*") for part in word.split(",")]
    return b"".join(bytes.fromhex(digits.strip("-")) * int(times or 1) for digits, _, times in parts)


def to_hex(data):
    """Two digits for each byte, but 16 zeros or more by their number."""
    out, zeros = "", 0
    for byte in [*data, None]:
        if byte == 0:
            zeros += 1
            continue
        out += f",00*{zeros}," if zeros >= 16 else "00" * zeros
        zeros = 0
        out += "" if byte is None else f"{byte:02x}"
    return out


def named(items):
    return "".join(f"{item}," for item in items)


def listed(items):
    """The number of records or rows, and each of them."""
    out = str(len(items))
    for item in items:
        out += f"; {WORDS[item[0]]} {item.uid}"
        if hasattr(item, "state") or item.kind in (BEGUN, PREPARED):
            out += f" {item.key} pods={named(item.pods)} devices={named(item.devices)}"
    return out


class Formatted(Exception):
    """A disk failed before the file was formatted."""


def begin(start, half, failing=None):
    """Opens a file, or one that is made anew, on a disk whose call of a number fails. Where the opening fails, the
    exception has the disk."""
    disk = Disk(b"" if start is None else start, failing)
    try:
        if start is None:
            make_file(disk, half)
    except Failed as failed:
        raise Formatted from failed
    try:
        return Journal(disk, half)
    except Failed as failed:
        failed.disk = disk
        raise


def append_each(journal, records):
    """Appends the records, and goes on where one is full. Returns how many were."""
    full = 0
    for record in records:
        try:
            journal.append(record)
        except Full:
            full += 1
    return full


def open_case(half, data):
    return listed(begin(data, half).records)


def format_case(half, data):
    return to_hex(new_file(half) + data[22 + half :])


def found(half, data):
    try:
        return str(len(Journal(PlainDisk(data), half).records))
    except NotAJournal as error:
        return f"NotAJournal({'end' if error.offset == len(data) else error.offset})"


def runs(values):
    """Pairs of an index and a value, where the value isn't the one before."""
    before = None
    for index, value in enumerate(values):
        if value != before:
            yield index, value
        before = value


def lengths_case(half, data):
    results = (found(half, data[:length]) for length in range(len(data) + 1))
    return "".join(f"{length}:{result} " for length, result in runs(results))


def changed_case(half, first, last, data):
    out = ""
    for at in range(int(first), int(last)):
        results = (found(half, data[:at] + bytes([byte]) + data[at + 1 :]) for byte in range(256))
        out += f"{at}:" + "".join(f" {byte:02x}={result}" for byte, result in runs(results)) + "; "
    return out


def long_case(half, length):
    journal = begin(None, half)
    try:
        journal.append(Record(GONE, "u" * int(length), "", (), ()))
    except Full:
        return "Full"
    return f"{len(journal.disk.data)} {len(begin(journal.disk.data, half).records)}"


def turns_case(half, count, data):
    records = begin(data, half).records
    journal = Journal(PlainDisk(new_file(half)), half)
    full = 0
    for _ in range(int(count)):
        full += append_each(journal, records)
    return f"{full} {len(journal.rows)} {len(journal.disk.data)}"


def copy_case(half, start, records):
    journal = begin(start, half)
    full = append_each(journal, records)
    return (f"full={full} " if full else "") + to_hex(journal.disk.data)


def table_case(half, start, records):
    journal = begin(start, half)
    append_each(journal, records)
    return listed(journal.rows)


def sizes_case(half, start, records):
    """The live half and its bytes through the closed gate after each append, and what the append did to the disk."""
    journal = begin(start, half)
    out = ""
    for record in records:
        moments = len(journal.disk.moments)
        try:
            journal.append(record)
            said = f"{int(journal.second)}:{journal.used()}"
        except Full:
            said = "Full"
        out += f"{said}:{len(journal.disk.moments) - moments} "
    return f"{out}{len(journal.disk.data)}"


class Tables:
    """The different tables that a journal has while records are appended, in the order in which they come."""

    def __init__(self, half, start, records):
        journal = begin(start, half)
        self.half, self.tables = half, [journal.rows]
        for record in records:
            append_each(journal, [record])
            if journal.rows not in self.tables:
                self.tables.append(journal.rows)

    def mark(self, data):
        try:
            records = begin(data, self.half).records
        except NotAJournal as error:
            return f"NotAJournal({error.offset})"
        rows = list(table_of(records).values())
        return f"{len(records)}{chr(97 + self.tables.index(rows)) if rows in self.tables else '!'}"


def crashes_case(half, start, records):
    tables = Tables(half, start, records)
    journal = begin(start, half)
    append_each(journal, records)
    out = ""
    for moment in journal.disk.moments[2 if start is None else 0 :]:
        images = [moment.image(pick) for pick in range(PICKS)]
        marks = [tables.mark(image) for image in images]
        same = all(mark == marks[0] for mark in marks)
        out += f"{marks[0]}*{PICKS}" if same else ",".join(marks)
        out += f"/{sum(map(len, images))} "
    return out


def with_fault(half, start, records, tables, failing):
    try:
        journal = begin(start, half, failing)
    except Formatted:
        return "start"
    except Failed as failed:
        return tables.mark(failed.disk.data)
    try:
        append_each(journal, records)
        return "all"
    except Failed:
        return tables.mark(journal.disk.data)


def faults_case(half, start, records):
    tables = Tables(half, start, records)
    out = ""
    for number in range(1, 1000):
        said = with_fault(half, start, records, tables, number)
        out += said
        if said == "all":
            break
        out += " "
    return out


OF_FILE = {"open": open_case, "format": format_case, "lengths": lengths_case}
OF_NUMBERS = {"changed": changed_case, "turns": turns_case}
OF_APPENDS = {
    "copy": copy_case,
    "table": table_case,
    "sizes": sizes_case,
    "crashes": crashes_case,
    "faults": faults_case,
}


def answer(line):
    if not line or line.startswith("#"):
        return line
    kind, half, *words = line.split(" ")
    half = int(half)
    try:
        if kind in OF_FILE:
            return OF_FILE[kind](half, from_hex(words[0]))
        if kind == "long":
            return long_case(half, words[0])
        if kind in OF_NUMBERS:
            return OF_NUMBERS[kind](half, *words[:-1], from_hex(words[-1]))
        start = None if words[0] == "new" else from_hex(words[0])
        return OF_APPENDS[kind](half, start, begin(from_hex(words[1]), half).records)
    except NotAJournal as error:
        return f"NotAJournal({error.offset})"


def main():
    for line in sys.stdin:
        print(answer(line.rstrip("\n")))


if __name__ == "__main__":
    main()
