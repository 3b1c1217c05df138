"""Judges the journal of a replay with any number of workers: whether its lines are those of a legal history in which
each command of the script has its run, and its last line is that history's summary.

The entries of a command come after those of the command before it. Those of a Together are the runs of its members, in
any order that each entry's own condition allows: it is of a member that hasn't ended, of a kind that may be next for
it, and right over the state before it; a plan or a verdict is what a search within the budget finds over the state at
its place `at`, which isn't before the job's previous entry or the entries of the command. At the limit of entries the
text ends, and jobs may have begun without an end.

usage: python3 .ci/model/judge.py SCRIPT [budget=B] [attempts=A] [entries=E] [workers=W] [node=N] < JOURNAL

Prints the status with which such a replay ends, or the first line that isn't right and why, and then ends with 1. With
the number of workers it judges too that each of them runs its members of a Together one after another.
"""

import re
import sys
from dataclasses import dataclass
from functools import lru_cache

import journal
from checks import failure_of_plan
from documents import NoCommand, Prepare, Reopen, Together, Unprepare, asked_by, read_json
from jobs import (
    Schedule,
    change_by_single,
    change_by_taken,
    entry_of_taken,
    refusal_of_schedule,
    search,
    single_entry,
)
from kubelet import Kubelet
from script import Ended, Input, documents
from selector_texts import UnknownText
from state import State

# How the job of a Schedule stands, and what may be next for it. After its last attempt only `contended` may.
FRESH, RESERVED, CONFLICTED, FAILED = "fresh", "reserved", "conflicted", "failed"
NEXT = {
    FRESH: ("reserved", "refused", "verdict", "denied"),
    RESERVED: ("wrote", "conflict", "bound"),
    CONFLICTED: ("unreserved",),
    FAILED: ("reserved", "refused", "verdict", "denied", "contended"),
}
STAND_AFTER = {
    "reserved": RESERVED,
    "wrote": RESERVED,
    "conflict": CONFLICTED,
    "unreserved": FAILED,
    "refused": FAILED,
}

PLAN = re.compile(
    r"(?P<pod>\S+) (?P<node>\S+) at=(?P<at>\S+) passed=(?P<passed>\S+) grants=(?P<grants>\S+) joins=(?P<joins>\S+)"
    r"(?: why=(?P<why>\S+))?"
)
VERDICT = re.compile(r"(?P<pod>\S+) (?P<word>\S+) at=(?P<at>\S+) (?P<causes>(?:nodes|claim)=.*)", re.DOTALL)
FORMS = {
    "reserved": "pod, node, at=, passed=, grants=, joins=",
    "refused": "pod, node, at=, passed=, grants=, joins=, why=",
    "verdict": "pod, a word, at=, and nodes= or claim=",
}
NUMBERS = {
    "entries": "the entries are {}",
    "commands": "the commands are {}",
    "granted": "the claims with a grant are {}",
    "bound": "the pods that are bound are {}",
}


class Wrong(Exception):
    """The number of the first line that isn't right, from 1, and why it isn't."""

    def __init__(self, line, why):
        super().__init__(f"line {line}: {why}")
        self.line = line
        self.why = why


@dataclass
class Limits:
    budget: int = 100_000
    attempts: int = 32
    entries: int = 10**6
    workers: int | None = None
    node: str = ""


def limits_of_words(words):
    """The limits that words of the form `name=value` give."""
    options = dict(word.split("=") for word in words)
    return Limits(**{name: value if name == "node" else int(value) for name, value in options.items()})


class RunningJob:
    """A job whose entries are due. `since` is the first place over whose state its next search may be, and `because` is
    why; `behind` is the job that the same worker runs before it, if that is known."""

    def __init__(self, number, command, since, behind):
        self.number = number
        self.command = command
        self.since = since
        self.because = "the entries of its command begin"
        self.behind = behind
        self.stand = FRESH
        self.failed = 0
        self.end = None


def jobs_text(numbers):
    return f"job {numbers[0]}" if len(numbers) == 1 else f"jobs {numbers[0]} to {numbers[-1]}"


class Judge:
    """The lines of a journal, the state after those that were judged, and within the entries of a Together the states
    before, by place."""

    def __init__(self, text, limits=Limits(), disk=None, driver=None):
        self.lines = text.split("\n")
        self.has_end = self.lines[-1] == ""
        if self.has_end:
            self.lines.pop()
        self.limits = limits
        self.read = 0
        self.length = 0
        self.state = State()
        self.states = {}
        self.searches = {}
        self.kubelet = Kubelet(limits.node, disk, driver)

    # Lines

    def wrong(self, why):
        raise Wrong(self.read, why)

    def next_line(self, due):
        """The next line, or that there is none."""
        self.read += 1
        if self.read > len(self.lines):
            self.wrong(f"the text ends here, where {due}")
        if self.read == len(self.lines) and not self.has_end:
            self.wrong("it has no line end")
        return self.lines[self.read - 1]

    def no_more(self, why):
        if self.read < len(self.lines):
            self.read += 1
            self.wrong(f"nothing may follow {why}")

    # The run of a script

    def run(self, script):
        """Judges the whole text, and returns the status with which the replay ends."""
        asked, status = asked_in(script)
        number = 0
        for one in asked:
            commands = one.commands if isinstance(one, Together) else [one]
            numbers = range(number + 1, number + 1 + len(commands))
            number += len(commands)
            if isinstance(one, (Prepare, Unprepare, Reopen)):
                self.lines_of_kubelet(number, one)
            elif not self.entries_of(dict(zip(numbers, commands))):
                self.no_more(f"the limit of {self.limits.entries} entries")
                return 8
        if status == 0:
            self.summary(number)
            self.no_more("the summary")
        else:
            self.no_more("the last command, since the script isn't whole and has no summary")
        return status

    def lines_of_kubelet(self, number, asked):
        for due in self.kubelet.lines(number, asked, self.state):
            due = journal.clean(due)
            if self.next_line(f"`{due}` is due") != due:
                self.wrong(f"`{due}` is due")

    def entries_of(self, commands):
        """Judges the entries of a command, given as the commands of its jobs by number. Returns false if the limit of
        entries was met."""
        return self.entries_of_jobs(self.begin(commands))

    def entries_of_jobs(self, jobs, may_stop=False):
        """Judges the entries of jobs. Returns false if the limit of entries was met, or if the text may stop before all
        jobs have ended and does."""
        while open_jobs := [job.number for job in jobs.values() if job.end is None]:
            if self.length == self.limits.entries or may_stop and self.read == len(self.lines):
                return False
            ended = "hasn't ended" if len(open_jobs) == 1 else "haven't all ended"
            self.entry(jobs, f"{jobs_text(open_jobs)} {ended}")
        return True

    def begin(self, commands):
        self.states = {self.length: self.state.copy()}
        self.searches = {}
        jobs = {}
        for number, command in commands.items():
            behind = jobs.get(number - self.limits.workers) if self.limits.workers else None
            jobs[number] = RunningJob(number, command, self.length, behind)
        return jobs

    def entry(self, jobs, due):
        """Judges one line, which is an entry of one of the jobs."""
        line = self.next_line(due)
        parts = line.split(" ", 3)
        if parts[0] == "summary":
            self.wrong(f"the summary comes before the end: {due}")
        if len(parts) < 4:
            self.wrong("an entry has its place, its job, its kind and more")
        place, number, kind, rest = parts
        if place != str(self.length + 1):
            self.wrong(f"its place is {place}, and {self.length + 1} is due")
        job = next((job for job in jobs.values() if str(job.number) == number), None)
        if job is None:
            self.wrong(f"job {number} isn't of the command whose entries are due, which has {jobs_text(list(jobs))}")
        self.turn_of(job, kind)
        if isinstance(job.command, Schedule):
            self.entry_of_schedule(job, kind, rest)
        else:
            self.entry_of_single(job, kind, rest)
        self.length += 1
        self.change(job, kind)
        self.stand_after(job, kind)
        if len(jobs) > 1:
            self.states[self.length] = self.state.copy()

    def turn_of(self, job, kind):
        """Whether an entry of this kind may be next for the job."""
        if job.end is not None:
            self.wrong(f"job {job.number} ended at {job.end}")
        if job.behind and job.behind.end is None:
            self.wrong(f"job {job.number} comes before the end of job {job.behind.number}, which has the same worker")
        if not isinstance(job.command, Schedule):
            return
        left = self.limits.attempts - job.failed
        allowed = NEXT[job.stand] if left or job.stand != FAILED else ("contended",)
        if kind not in allowed:
            stand = {
                FRESH: "has no entry yet",
                RESERVED: "has reserved",
                CONFLICTED: "is in conflict",
                FAILED: f"has failed {job.failed} of {self.limits.attempts} attempts",
            }[job.stand]
            self.wrong(f"job {job.number} {stand}, so `{kind}` can't be next; {' or '.join(allowed)} can")
        if kind == "contended" and left:
            self.wrong(f"job {job.number} has failed {job.failed} of {self.limits.attempts} attempts, not all")

    def change(self, job, kind):
        """What the entry changes of the state."""
        command, at = job.command, self.length
        if kind == "denied":
            return
        if not isinstance(command, Schedule):
            change_by_single(self.state, command, at)
        elif kind == "reserved":
            self.state.reserve(command.pod, job.number, job.plan.node, job.plan.grants)
        elif kind == "unreserved":
            self.state.give_up(command.pod, at)
        else:
            change_by_taken(self.state, command.pod, kind, at)
        held = self.state.held()
        assert len(held) == len(dict(held)), "a device has one holder"

    def stand_after(self, job, kind):
        job.since = self.length
        job.because = "its job's previous entry is"
        job.stand = STAND_AFTER.get(kind)
        if job.stand is None:
            job.end = self.length
        if job.stand == FAILED:
            job.failed += 1

    # Entries

    def expect(self, kind, rest, due_kind, due_rest, why):
        """Compares the kind and the rest of a line with what is due."""
        due_rest = journal.clean(due_rest)
        if (kind, rest) != (due_kind, due_rest):
            self.wrong(f"{why}, so `{due_kind} {due_rest}` is due")

    def entry_of_single(self, job, kind, rest):
        """An entry of another command than a Schedule: it follows from the state alone."""
        due_kind, due_rest = single_entry(self.state, job.command, job.number)
        why = "no refusal of the command holds here"
        if due_kind == "denied":
            why = "this is the first refusal of the command that holds here"
        self.expect(kind, rest, due_kind, due_rest, why)

    def entry_of_schedule(self, job, kind, rest):
        pod = job.command.pod
        if kind in ("reserved", "refused", "verdict"):
            self.searched(job, kind, rest)
        elif kind == "denied":
            refusal = refusal_of_schedule(self.state, pod, job.number)
            if refusal is None:
                self.wrong("no refusal of the Schedule holds here")
            self.expect(kind, rest, kind, refusal, "this is the first refusal of the Schedule that holds here")
        elif kind == "contended":
            self.expect(kind, rest, kind, f"{pod} attempts={job.failed}", f"job {job.number} has no attempt left")
        elif kind == "unreserved":
            self.expect(kind, rest, kind, str(pod), f"job {job.number} gives its pod up")
        else:
            due_kind, due_rest = entry_of_taken(self.state, pod)
            why = {
                "wrote": "the pod's first claim whose use isn't written has the version that the job reserved",
                "conflict": "the pod's first claim whose use isn't written has another version than the job reserved",
                "bound": "all uses of the pod are written",
            }[due_kind]
            self.expect(kind, rest, due_kind, due_rest, why)

    def searched(self, job, kind, rest):
        """A plan or a verdict: what a search within the budget finds over the state at its place; and what becomes of a
        plan over the present state."""
        pod = job.command.pod
        said = (VERDICT if kind == "verdict" else PLAN).fullmatch(rest)
        if said is None or (kind == "refused") != (said.groupdict().get("why") is not None):
            self.wrong(f"a {kind} has {FORMS[kind]}")
        if said["pod"] != str(pod):
            self.wrong(f"its pod is {said['pod']}, and job {job.number} schedules {pod}")
        at = self.place_of_search(job, said["at"])
        found = self.found(pod, at)
        if isinstance(found, str):
            self.wrong(f"over the state at {at} the pod {pod} {found}")
        if (kind == "verdict") != (found.plan is None):
            due = "verdict" if found.plan is None else "reserved or refused"
            self.wrong(f"over the state at {at} a search gives `{due} {journal.clean(found.text)}`")
        due = (VERDICT if kind == "verdict" else PLAN).fullmatch(journal.clean(found.text))
        for name, value in due.groupdict().items():
            if name != "why" and said[name] != value:
                written = f"{name}={value}" if name in ("passed", "grants", "joins") else value
                self.wrong(f"over the state at {at} a search gives `{written}`")
        if kind != "verdict":
            self.plan_now(job, kind, found.plan, said["why"])

    def place_of_search(self, job, text):
        """The place `at` of a plan or a verdict."""
        if not re.fullmatch("0|[1-9][0-9]*", text, re.ASCII):
            self.wrong(f"at={text} is no place")
        at = int(text)
        if at > self.length:
            self.wrong(f"at={at} is past the {self.length} entries before it")
        if at < job.since:
            self.wrong(f"at={at} is before {job.since}, where {job.because}")
        if job.behind and at < job.behind.end:
            ended = f"job {job.behind.number} ended, which has the same worker"
            self.wrong(f"at={at} is before {job.behind.end}, where {ended}")
        return at

    def found(self, pod, at):
        """What a search for the pod finds over the state at a place, or that it isn't idle there."""
        if (pod, at) not in self.searches:
            state = self.state if at == self.length else self.states[at]
            if pod not in state.pods:
                found = "isn't there"
            elif state.pods[pod].phase is not None:
                found = "isn't idle"
            else:
                found = search(state, pod, at, self.limits.budget)
            self.searches[pod, at] = found
        return self.searches[pod, at]

    def plan_now(self, job, kind, plan, why):
        """What becomes of a plan over the present state: the pod is idle, and the plan is reserved if it has no
        failure, and else refused with the first."""
        pod = job.command.pod
        refusal = refusal_of_schedule(self.state, pod, job.number)
        if refusal:
            self.wrong(f"the pod {pod} isn't idle here, so `denied {refusal}` is due")
        failure = failure_of_plan(self.state, pod, plan)
        if failure is None and kind == "refused":
            self.wrong("the plan doesn't fail here, so it is reserved")
        if failure and why != failure:
            self.wrong(f"the plan's first failure here is {failure}, so it is refused with that")
        job.plan = plan

    def summary(self, commands):
        line = self.next_line("the summary is due")
        due = journal.summary(self.state, self.length, commands).rstrip("\n")
        if line == due:
            return
        said = re.fullmatch(r"summary entries=(\S+) commands=(\S+) granted=(\S+) bound=(\S+)", line)
        if said is None:
            self.wrong(f"all jobs have ended, so `{due}` is due")
        for name, value, number in zip(NUMBERS, said.groups(), re.findall(r"\d+", due)):
            if value != number:
                self.wrong(f"{name}={value}, and {NUMBERS[name].format(number)}")


# Scripts


@lru_cache(maxsize=None)
def asked(document):
    try:
        return asked_by(read_json(document))
    except NoCommand:
        return None


def asked_in(script):
    """What a script asks for, in order, up to its end or to the first document that is none; and the status of a replay
    that gets so far."""
    found = []
    try:
        for _, document in documents(Input(script, len(script), failing=0)):
            one = asked(document)
            if one is None:
                return found, 3
            found += one
    except Ended as end:
        return found, end.args[0]
    return found, 0


def judged(script, text, limits=Limits(), disk=None, driver=None):
    """Judges a journal, given as bytes, and returns the status with which the replay of the script ends. The kubelet finds
    the disk so, or an empty one, and asks the driver, or one that never fails."""
    return Judge(text.decode(errors="surrogateescape"), limits, disk, driver).run(script)


def main():
    path, *words = sys.argv[1:]
    limits = limits_of_words(words)
    with open(path, "rb") as file:
        script = file.read()
    text = sys.stdin.buffer.read()
    try:
        print(f"right: the replay ends with status {judged(script, text, limits)}")
    except UnknownText as unknown:
        sys.exit(f"left out, since a selector is unknown: {unknown}")
    except Wrong as wrong:
        lines = text.decode(errors="replace").split("\n")
        print(wrong)
        print("".join(f"    {line}\n" for line in lines[wrong.line - 1 : wrong.line] if line), end="")
        return 1
    return 0


if __name__ == "__main__":
    sys.exit(main())
