"""Commands, and jobs that do them in steps of at most one entry each.

A job of a Schedule makes attempts. A step takes a snapshot and searches; the next appends the verdict that was found,
or checks the plan against the present state and reserves; then the pod's use of each claim is written, and the pod is
bound. A plan that fails is refused, and a claim that has another version than the job reserved is in conflict, after
which all is given up: then the attempt has failed. Any other job has one entry.
"""

from dataclasses import dataclass

import checks
import journal
import pools
import walk
from fields import FieldError
from objects import Status
from state import WRITTEN, State, Taken
from values import Key

MOST_DEVICES = 65536


# Commands


@dataclass
class Apply:
    """Creates or updates an object. The mode is "create", "update", or "apply", which updates what is there."""

    object: object
    mode: str = "apply"


@dataclass
class Invalid:
    """A document whose fields don't read, or whose selectors don't compile."""

    error: FieldError


@dataclass
class Delete:
    kind: str
    key: Key


@dataclass
class Schedule:
    pod: Key


@dataclass
class Release:
    pod: Key


@dataclass
class WriteStatus:
    status: Status


# Refusals: the first of a command's list that holds, as it is printed, or None


def refusal_of_version(version, stored):
    """An object that carries a version carries the present one."""
    if version is not None and version != stored.version:
        return f"Conflict had={version} now={stored.version}"
    return None


def is_immutable(new, old):
    """Whether an update would change the spec of a claim, or the claims of a pod."""
    if new.kind == "ResourceClaim":
        return (new.requests, new.constraints) != (old.requests, old.constraints)
    return new.kind == "Pod" and new.entries != old.entries


def refusal_of_apply(state, command):
    new = command.object
    key = new.metadata.key
    stored = state.tables[new.kind].get(key)
    if stored and command.mode == "create":
        return f"Exists {new.kind} {key}"
    if not stored and command.mode == "update":
        return f"NotFound {new.kind} {key}"
    if stored:
        conflict = refusal_of_version(new.metadata.version, stored)
        if conflict:
            return conflict
        if is_immutable(new, stored.object):
            return f"Immutable {new.kind} {key}"
    if new.kind == "ResourceSlice" and state.count_of_devices(left_out=key) + len(new.devices) > MOST_DEVICES:
        return f"Devices {MOST_DEVICES}"
    return None


def refusal_of_delete(state, command):
    kind, key = command.kind, command.key
    if key not in state.tables[kind]:
        return f"NotFound {kind} {key}"
    used = kind == "ResourceClaim" and state.claims[key].users
    working = kind == "Pod" and (state.pods[key].phase is not None or state.is_user(key))
    return f"InUse {kind} {key}" if used or working else None


def refusal_of_pod(state, pod, job):
    if pod not in state.pods:
        return f"NotFound Pod {pod}"
    phase = state.pods[pod].phase
    if isinstance(phase, Taken) and phase.job != job:
        return f"Busy {phase.job}"
    return None


def refusal_of_schedule(state, pod, job):
    refusal = refusal_of_pod(state, pod, job)
    if refusal is None and state.is_bound(pod):
        return f"Bound {state.pods[pod].phase.node}"
    return refusal


def refusal_of_release(state, pod, job):
    return refusal_of_pod(state, pod, job) or (None if state.is_bound(pod) else f"NotBound {pod}")


def refusal_of_status(state, status):
    key = status.metadata.key
    if key not in state.claims:
        return f"NotFound ResourceClaim {key}"
    conflict = refusal_of_version(status.metadata.version, state.claims[key])
    if conflict:
        return conflict
    if state.claims[key].grant:
        return f"Exists ResourceClaim {key}"
    failure = checks.failure_of_status(state, key, status)
    return f"Failure {failure}" if failure else None


def refusal_of_single(state, command, job):
    """The first refusal of a command that isn't a Schedule."""
    if isinstance(command, Invalid):
        return f"Invalid {command.error}"
    if isinstance(command, Apply):
        return refusal_of_apply(state, command)
    if isinstance(command, Delete):
        return refusal_of_delete(state, command)
    if isinstance(command, Release):
        return refusal_of_release(state, command.pod, job)
    return refusal_of_status(state, command.status)


# Entries: what follows from the state alone, as the kind and the rest of a line, and what it changes


def single_entry(state, command, job):
    """The one entry of a command that isn't a Schedule."""
    refusal = refusal_of_single(state, command, job)
    if refusal:
        return "denied", refusal
    if isinstance(command, Apply):
        return "applied", f"{command.object.kind} {command.object.metadata.key}"
    if isinstance(command, Delete):
        return "deleted", f"{command.kind} {command.key}"
    if isinstance(command, Release):
        return "released", str(command.pod)
    key = command.status.metadata.key
    grants = journal.grants_text([(key, command.status.results)])
    return "adopted", f"{key} {command.status.node} grants={grants}"


def change_by_single(state, command, at):
    """What the entry at that index changes, unless the command is denied."""
    if isinstance(command, Apply):
        state.put(command.object, at)
    elif isinstance(command, Delete):
        state.take_away(command.kind, command.key)
    elif isinstance(command, Release):
        state.give_up(command.pod, at)
    else:
        status = command.status
        state.adopt(status.metadata.key, status.node, status.results, at)


def entry_of_taken(state, pod):
    """What is next for a pod that a job has taken: its first use that isn't written is written, or is in conflict if
    the claim has another version than the job reserved; else the pod is bound."""
    for claim in state.claims_of_pod(pod):
        use, now = state.claims[claim].users[pod], state.claims[claim].version
        if use == now:
            return "wrote", f"{pod} {claim} seen={now}"
        if use != WRITTEN:
            return "conflict", f"{pod} {claim} had={use} now={now}"
    return "bound", f"{pod} {state.pods[pod].phase.node}"


def change_by_taken(state, pod, kind, at):
    """What that entry changes."""
    if kind == "wrote":
        unwritten = [claim for claim in state.claims_of_pod(pod) if state.claims[claim].users[pod] != WRITTEN]
        state.write(pod, unwritten[0], at)
    elif kind == "bound":
        state.bind(pod)


# What a search finds


@dataclass
class Found:
    """A plan, or a verdict if there is none, with the rest of its line."""

    plan: checks.Plan | None
    text: str


def search(state, pod, at, budget):
    """Nodes are tried in the order of their names, and the first with an allocation is taken. A claim with a grant is
    for the grant's node alone."""
    claims = state.claims_of_pod(pod)
    for claim in claims:
        if claim not in state.claims:
            return Found(None, f"{pod} missing at={at} claim={claim}")
    for claim in claims:
        if not state.has_room(claim, pod):
            return Found(None, f"{pod} users at={at} claim={claim}")
    wanted = [(claim, state.claims[claim].object) for claim in state.wanted(pod)]
    joined = state.joined(pod)
    causes = []
    for node in state.node_names():
        elsewhere = [claim for claim in joined if state.node_of_grant(claim) != node]
        if elsewhere:
            causes.append((node, f"other:{elsewhere[0]}"))
            continue
        mark, found = walk.outcome(pools.NodeView(state, node), wanted, budget)
        if mark == walk.FULL:
            known = [(claim, state.claims[claim].uid, state.node_of_grant(claim)) for claim in claims]
            plan = checks.Plan(state.pods[pod].uid, known, node, [(one.key, one.results) for one in found])
            passed, grants = journal.causes_text(causes), journal.grants_text(plan.grants)
            text = f"{pod} {node} at={at} passed={passed} grants={grants} joins={journal.listed(map(str, joined))}"
            return Found(plan, text)
        causes.append((node, journal.fault_text(found) if mark == walk.FAULT else mark))
    marks = [cause.partition(":")[0] for _, cause in causes]
    word = next((mark for mark in (walk.FAULT, "budget") if mark in marks), "unsatisfiable")
    return Found(None, f"{pod} {word} at={at} nodes={journal.causes_text(causes)}")


# Jobs


class HistoryFull(Exception):
    """The history has as many entries as it may have, and one more is due."""


class History:
    """The lines of the entries so far, and the state after them."""

    def __init__(self, most_entries=10**6):
        self.lines = []
        self.state = State()
        self.most_entries = most_entries

    def append(self, job, kind, rest):
        """Appends an entry, and returns its index."""
        if len(self.lines) >= self.most_entries:
            raise HistoryFull
        index = len(self.lines) + 1
        self.lines.append(journal.line(index, job, kind, rest))
        return index

    def summary(self, commands):
        return journal.summary(self.state, len(self.lines), commands)


class Job:
    """The work of one command. `end` is the index of its last entry once it has ended."""

    def __init__(self, number, command, budget=100000, attempts=32):
        self.number = number
        self.command = command
        self.budget = budget
        self.attempts = attempts
        self.end = None
        self.failed = 0
        self.found = None
        self.has_searched = False
        self.conflicted = False

    def step(self, history):
        """One step of the core. It changes nothing if the history is full."""
        if isinstance(self.command, Schedule):
            self.step_of_schedule(history, history.state)
        else:
            self.step_of_single(history, history.state)

    def run(self, history):
        """All steps of the job, one after another."""
        while self.end is None:
            self.step(history)

    def deny(self, history, refusal):
        self.end = history.append(self.number, "denied", refusal)

    def step_of_single(self, history, state):
        kind, rest = single_entry(state, self.command, self.number)
        self.end = history.append(self.number, kind, rest)
        if kind != "denied":
            change_by_single(state, self.command, self.end)

    def step_of_schedule(self, history, state):
        pod = self.command.pod
        taken = pod in state.pods and state.pods[pod].phase
        if self.conflicted:
            self.step_of_unreserve(history, state, pod)
        elif isinstance(taken, Taken) and taken.job == self.number:
            self.step_of_writes(history, state, pod)
        elif self.failed >= self.attempts:
            self.end = history.append(self.number, "contended", f"{pod} attempts={self.failed}")
        elif self.found is None:
            self.step_of_search(history, state, pod)
        elif self.found.plan is None:
            self.end = history.append(self.number, "verdict", self.found.text)
        else:
            self.step_of_reserve(history, state, pod)

    def step_of_search(self, history, state, pod):
        refusal = refusal_of_schedule(state, pod, self.number)
        if refusal:
            return self.deny(history, refusal)
        self.found = search(state, pod, len(history.lines), self.budget)
        self.has_searched = True

    def step_of_reserve(self, history, state, pod):
        plan, text = self.found.plan, self.found.text
        refusal = refusal_of_schedule(state, pod, self.number)
        if refusal:
            return self.deny(history, refusal)
        failure = checks.failure_of_plan(state, pod, plan)
        if failure:
            history.append(self.number, "refused", f"{text} why={failure}")
            self.failed += 1
        else:
            history.append(self.number, "reserved", text)
            state.reserve(pod, self.number, plan.node, plan.grants)
        self.found = None

    def step_of_writes(self, history, state, pod):
        kind, rest = entry_of_taken(state, pod)
        at = history.append(self.number, kind, rest)
        change_by_taken(state, pod, kind, at)
        self.conflicted = kind == "conflict"
        self.end = at if kind == "bound" else None

    def step_of_unreserve(self, history, state, pod):
        state.give_up(pod, history.append(self.number, "unreserved", str(pod)))
        self.conflicted = False
        self.failed += 1
