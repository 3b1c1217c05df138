"""The cases of states: plans, writes of a claim's status, usable pools, refusals and what is remembered of nodes, with what
the definitions say of each. The file crates/job_cases/stdin has them behind its line `states`, and says there what a case may be.
"""

import json

import fields
from checks import Plan, failure_of_plan, failure_of_status
from documents import commands_of, read_json
from fields import Place
from jobs import Delete, History, Job, refusal_of_delete, refusal_of_release, refusal_of_schedule
from objects import Result
from pools import NodeView, is_usable, pools
from selector_texts import UnknownText
from state import key_for
from values import key_of_text

KINDS = {"node": "Node", "slice": "ResourceSlice", "class": "DeviceClass", "claim": "ResourceClaim", "pod": "Pod"}


def asked(state, pod):
    """What the claims of a pod ask for that have no grant."""
    claims = [state.claims[key].object for key in state.wanted(pod)]
    return [(claim.requests, claim.constraints) for claim in claims]


class Remembered:
    """The nodes of which a Schedule showed that they have no allocation for what its pod's claims ask for, as long as no node,
    slice or class has changed, and no device of a pool that the node sees was freed."""

    def __init__(self):
        self.nodes = []

    def go_on(self, before, state, lines):
        """Commands have led from one state to another, and their lines are these."""
        changed = any(before.tables[kind] != state.tables[kind] for kind in ("Node", "ResourceSlice", "DeviceClass"))
        freed = {device.rpartition("/")[0] for device, _ in set(before.held()) - set(state.held())}
        sees_freed = lambda node: any(device.rpartition("/")[0] in freed for device in NodeView(state, node).ids)
        self.nodes = [(ways, node) for ways, node in self.nodes if not changed and not sees_freed(node)]
        for kind, pod, *rest in (line.split()[2:] for line in lines):
            if kind in ("verdict", "reserved"):
                causes = [text.partition("=")[2] for text in rest if text.startswith(("nodes=", "passed="))]
                passed = [cause.partition(":") for text in causes for cause in text.split(",")]
                self.nodes += [(asked(before, key_of_text(pod)), node) for node, _, why in passed if why == "unsat"]

    def take(self, state, pod):
        """The nodes that are known for what the claims of a pod ask for. All is forgotten."""
        known = [node for ways, node in self.nodes if ways == asked(state, pod)]
        self.nodes = []
        return " ".join(node for node in state.node_names() if node in known) or "-"


class Setup:
    """The present state, with the number of its jobs so far, and a selector of its documents that is unknown here."""

    def __init__(self):
        self.history = History()
        self.remembered = Remembered()
        self.jobs = 0
        self.unknown = None

    def do(self, document):
        """Does the commands of a document, and returns the lines of those that weren't done."""
        lines = []
        try:
            commands = commands_of(read_json(document.encode()))
        except UnknownText as unknown:
            self.unknown = unknown
            return ""
        for command in commands:
            before, state = len(self.history.lines), self.history.state.copy()
            self.jobs += 1
            Job(self.jobs, command).run(self.history)
            self.remembered.go_on(state, self.history.state, self.history.lines[before:])
            lines += [line for line in self.history.lines[before:] if line.split(" ")[2] in ("denied", "verdict")]
        return "".join(lines)


def read_results(text):
    results = []
    for one in text.split("+") if text else []:
        name, _, device = one.removesuffix("!").partition("@")
        results.append(Result(name, device, one.endswith("!")))
    return results


def read_plan(pod, node, parts):
    pod, _, uid = pod.rpartition(":")
    plan = Plan(int(uid), [], node, [])
    for part in parts:
        word, _, text = part.partition("=")
        claim, _, rest = text.partition(":")
        if word == "knew":
            claim_uid, _, granted = rest.partition(":")
            plan.known.append((key_of_text(claim), int(claim_uid), granted or None))
        elif word == "grant":
            plan.grants.append((key_of_text(claim), read_results(rest)))
    return key_of_text(pod), plan


def usable_slices(state):
    """The names of the slices of usable pools, in order, or `-`."""
    return " ".join(str(one.metadata.key) for pool in pools(state) if is_usable(pool) for one in pool) or "-"


def refusal_of(state, verb, name):
    """The first refusal of a command that names a pod or an object: its word, and with Bound the node."""
    if verb == "schedule":
        refusal = refusal_of_schedule(state, key_of_text(name), None)
    elif verb == "release":
        refusal = refusal_of_release(state, key_of_text(name), None)
    else:
        kind = KINDS[verb.removeprefix("delete-")]
        refusal = refusal_of_delete(state, Delete(kind, key_for(kind, *name.rpartition("/")[::2])))
    return refusal if refusal is None or refusal.startswith("Bound ") else refusal.split(" ")[0]


def result_of(setup, line):
    """What a line prints, beside a `state`, which begins another one."""
    word, _, rest = line.partition(" ")
    if not line or line.startswith("#"):
        return line + "\n"
    if line.startswith("{"):
        return setup.do(line)
    if word == "copies":
        first, last, document = rest.split(" ", 2)
        return "".join(setup.do(document.replace("#", str(i))) for i in range(int(first), int(last) + 1))
    state = setup.history.state
    name, _, rest = rest.partition(" ")
    if setup.unknown:
        return f"{name}: left out, since a selector is unknown: {setup.unknown}\n"
    if word == "plan":
        pod, node, *parts = rest.split(" ")
        failure = failure_of_plan(state, *read_plan(pod, node, parts))
    elif word == "usable":
        failure = usable_slices(state)
    elif word == "refusal":
        failure = refusal_of(state, *rest.split(" "))
    elif word == "known":
        failure = setup.remembered.take(state, key_of_text(rest))
    else:
        claim, document = rest.split(" ", 1)
        status = fields.read_status(Place(json.loads(document), ""))
        failure = failure_of_status(state, key_of_text(claim), status)
    return f"{name}: {failure or 'ok'}\n"


def text_of_states(lines):
    """What these lines print."""
    setup = Setup()
    text = ""
    for line in lines.splitlines():
        if line == "state":
            setup = Setup()
        else:
            text += result_of(setup, line)
    return text
