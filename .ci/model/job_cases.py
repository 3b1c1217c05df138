"""Reads the cases of jobs whose steps are made in the order that a case lists, and prints the lines that they append;
and then the cases of states. The file crates/job_cases/stdin says what a case may be.

usage: python3 .ci/model/job_cases.py < crates/job_cases/stdin
"""

import json
import sys
from functools import lru_cache

import fields
from containers import Container, print_case
from documents import commands_of, object_command, read_json, read_or_invalid
from jobs import History, HistoryFull, Job, WriteStatus
from state_cases import text_of_states

BORDER = b"\nstates\n"
PLAIN = {"entries": 10**6, "budget": 100_000, "attempts": 32}


@lru_cache(maxsize=None)
def commands_of_line(line):
    """The commands of a line: those of a document; a write of the status of a claim; or an object with its mode."""
    word, _, rest = line.partition(b" ")
    if word == b"status":
        return [read_or_invalid(lambda: WriteStatus(fields.read_status(fields.Place(json.loads(rest), ""))))]
    if word in (b"create", b"update"):
        return [object_command(json.loads(rest), word.decode())]
    return commands_of(read_json(line))


def commands_of_list(lines):
    return [command for line in lines.splitlines() for command in commands_of_line(line)]


def run_front(history, jobs):
    """Runs each job alone. Returns false if the history is full before all have ended."""
    try:
        for job in jobs:
            job.run(history)
    except HistoryFull:
        return False
    return True


def make_steps(history, works, steps):
    """Makes the steps, each of the work of an index unless that has ended, and says how many were made, or that the
    history was full."""
    turns = 0
    for step in steps:
        if works[step].end is None:
            try:
                works[step].step(history)
            except HistoryFull:
                return f"full {len(history.lines)}"
            turns += 1
    return f"turns {turns}"


def one_case(front, work, steps, options):
    """Runs the commands of a front alone, and then makes steps of the works."""
    history = History(options["entries"])
    how = options["budget"], options["attempts"]
    jobs = [Job(number, command, *how) for number, command in enumerate(commands_of_list(front), 1)]
    if not run_front(history, jobs):
        return "".join(history.lines) + f"full {len(history.lines)}, ended\n" + history.summary(0)
    commands = commands_of_list(work)
    works = [Job(number, command, *how) for number, command in enumerate(commands, len(jobs) + 1)]
    before = len(history.lines)
    made = make_steps(history, works, steps)
    ends = "".join(f" {job.end or '-'}" for job in works)
    summary = history.summary(len(jobs) + len(works))
    return "".join(history.lines[before:]) + f"{made}, ended{ends}\n" + summary


def case(line, lists):
    """What a case prints."""
    head, _, numbers = line.partition(": ")
    verb, front, work, *words = head.split(" ")
    options = {**PLAIN, **{name: int(number) for name, number in (word.split("=") for word in words)}}
    steps = [int(number) for number in numbers.split(" ")]
    if verb == "steps":
        return one_case(lists[front], lists[work], steps, options).encode()
    each = enumerate(lists[work].splitlines(), 1)
    return "".join(f"-- {number}\n" + one_case(lists[front], one, steps, options) for number, one in each).encode()


def jobs_of(content):
    """The part of a file that has the cases of jobs."""
    return Container(content.partition(BORDER)[0], "list")


def main():
    content = sys.stdin.buffer.read()
    container = jobs_of(content)
    for line in container.cases():
        print_case(line, case, container.parts)
    states = content.partition(BORDER)[2].decode()
    sys.stdout.buffer.write(f"== states\n{text_of_states(states)}".encode())


if __name__ == "__main__":
    main()
