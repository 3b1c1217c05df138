"""The walk of a node, as a list of what a search looks at, and the outcome of a search within a budget.

For each choice in order the walk has one fault if the choice has one on a device of the node. Else it has all good
lists of devices, a list before those that extend it, the empty list first; a list is full if it is a whole
allocation, and a part if not. If a request in the mode All can't be met, or a claim would have more than 32 results,
the choice has one part alone.
"""

from dataclasses import replace

import rules
from objects import Result

FULL, FAULT, PART = "full", "fault", "part"


def slots_of(view, granted):
    """The results of a claim that are to be filled: for each the claim's key, its way, and which result of the way it
    is. More than 33 aren't counted, since a claim has at most 32."""
    slots = []
    for way in granted.ways:
        count = len(view.matching(way)) if way.count is None else min(way.count, rules.MOST_RESULTS + 1)
        slots += [(granted.key, way, index) for index in range(count)]
    return slots


def is_hopeless(view, choice):
    """Whether a request in the mode All can't be met, or a claim would have more than 32 results."""
    return any(
        len(slots_of(view, granted)) > rules.MOST_RESULTS
        or any(way.count is None and (view.broken or not view.matching(way)) for way in granted.ways)
        for granted in choice
    )


def filled(choice, slots, devices):
    """The choice with these devices in its first slots."""
    results = {granted.key: [] for granted in choice}
    for (key, way, _), device in zip(slots, devices):
        results[key].append(Result(way.label, device, way.admin))
    return [replace(granted, results=results[granted.key]) for granted in choice]


def is_good(view, choice, slots, devices):
    """Whether the devices may be put into the first slots: each matches; they increase within a request, and are in a
    request in the mode All its matching devices in order; and they keep the other rules so far."""
    for place, ((_, way, index), device) in enumerate(zip(slots, devices)):
        matching = view.matching(way)
        if device not in matching:
            return False
        if way.count is None and matching[index] != device:
            return False
        if index and matching.index(devices[place - 1]) >= matching.index(device):
            return False
    grants = filled(choice, slots, devices)
    return all(
        fact(view, grants)
        for fact in (rules.distinct, rules.exclusive, rules.covered, rules.tolerated, rules.constraints_hold)
    )


def good_lists(view, choice, slots, devices):
    """The good lists that begin with this good one, in order."""
    yield devices
    if len(devices) < len(slots):
        for device in view.devices:
            longer = devices + [device.id]
            if is_good(view, choice, slots, longer):
                yield from good_lists(view, choice, slots, longer)


def walk(view, claims):
    """The items of the walk: a mark, and where the fault is or what the full item grants."""
    for choice in rules.choices(claims):
        fault = view.first_fault(choice)
        if fault:
            yield FAULT, fault
        elif is_hopeless(view, choice):
            yield PART, None
        else:
            slots = [slot for granted in choice for slot in slots_of(view, granted)]
            for devices in good_lists(view, choice, slots, []):
                grants = filled(choice, slots, devices)
                is_full = len(devices) == len(slots)
                assert is_full == rules.is_allocation(view, grants), "the full items are the allocations"
                yield (FULL, grants) if is_full else (PART, None)


def outcome(view, claims, budget):
    """Among the first items of the walk, as many as the budget, the first that is full or a fault; else "unsat" if
    the walk has no more items than that, else "budget"."""
    for count, (mark, found) in enumerate(walk(view, claims)):
        if count >= budget:
            return "budget", None
        if mark != PART:
            return mark, found
    return "unsat", None
