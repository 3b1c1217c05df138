"""What an allocation is: ten facts about the results that some claims get on a node.

The claims are given with the choice, which is one way for each request: its `exactly`, or one item of its
`firstAvailable`.
"""

from dataclasses import dataclass
from itertools import product

MOST_RESULTS = 32


@dataclass
class Granted:
    """A claim with its key, the ways chosen for its requests, and its results."""

    key: object
    claim: object
    ways: list
    results: list

    def results_of(self, way):
        return [result for result in self.results if result.name == way.label]


# Choices


def choices(claims):
    """All choices for some claims, pairs of key and object, in order: the way of the last request changes first. The
    claims have no results yet."""
    requests = [request for _, claim in claims for request in claim.requests]
    for ways in product(*(request.ways for request in requests)):
        rest = list(ways)
        yield [Granted(key, claim, [rest.pop(0) for _ in claim.requests], []) for key, claim in claims]


def choice_of_names(key, claim, results):
    """The claim with the ways that the names of its results pick: of a request with several ways the first that a
    result is named after. None if there is none for a request."""
    names = [result.name for result in results]
    named = [[way for way in request.ways if way.label in names] for request in claim.requests]
    return Granted(key, claim, [ways[0] for ways in named], results) if all(named) else None


# The facts


def node_known(view, grants):
    """The node is there."""
    return view.node is not None


def in_order(view, grants):
    """The results of each claim follow its requests in order, with the chosen names (`request/subrequest` for an item
    of `firstAvailable`), and a result has admin access exactly if its request has."""
    return all(
        granted.results == [result for way in granted.ways for result in granted.results_of(way)]
        and all(result.admin == way.admin for way in granted.ways for result in granted.results_of(way))
        for granted in grants
    )


def exact_count(view, grants):
    """A request in the mode ExactCount has exactly `count` results, in increasing position."""
    for granted in grants:
        for way in granted.ways:
            devices = [result.device for result in granted.results_of(way)]
            if way.count is not None and (len(devices) != way.count or devices != view.in_order(devices)):
                return False
    return True


def all_devices(view, grants):
    """A request in the mode All has exactly the devices of the node that match it, in increasing position. There is
    at least one, and no incomplete or invalid pool has a slice of its highest generation that the node sees."""
    for granted in grants:
        for way in granted.ways:
            devices = [result.device for result in granted.results_of(way)]
            if way.count is None and (view.broken or not devices or devices != view.matching(way)):
                return False
    return True


def devices_match(view, grants):
    """Each device is one of the node and matches its request, and no request of the choice has a selector that is
    neither true nor false of a device of the node."""
    return view.first_fault(grants) is None and all(
        result.device in view.matching(way)
        for granted in grants
        for way in granted.ways
        for result in granted.results_of(way)
    )


def distinct(view, grants):
    """The devices of one claim differ."""
    return all(len({result.device for result in granted.results}) == len(granted.results) for granted in grants)


def exclusive(view, grants):
    """A device without admin access is held by no claim, and is so in the results of one claim only."""
    claims_of = {}
    for device, key in without_admin(grants):
        claims_of.setdefault(device, set()).add(key)
    return all(device not in view.holders and len(keys) == 1 for device, keys in claims_of.items())


def covered(view, grants):
    """With the results added to what is held, each counter that a result without admin access draws on is covered."""
    return all(
        is_covered(view, counter, grants) for device, _ in without_admin(grants) for counter, _ in view.draws(device)
    )


def tolerated(view, grants):
    """Each taint of the device of each result, with admin access or without, is tolerated by a toleration of the
    result's request."""
    return all(
        is_tolerated(view, way, result.device)
        for granted in grants
        for way in granted.ways
        for result in granted.results_of(way)
    )


def constraints_hold(view, grants):
    """All results that a `matchAttribute` constraint names have its attribute, with one type and one value; versions
    are compared as texts. Each claim has at most 32 results."""
    return all(
        len(granted.results) <= MOST_RESULTS
        and all(constraint_holds(view, constraint, granted.results) for constraint in granted.claim.constraints)
        for granted in grants
    )


FACTS = (
    node_known,
    in_order,
    exact_count,
    all_devices,
    devices_match,
    distinct,
    exclusive,
    covered,
    tolerated,
    constraints_hold,
)


def is_allocation(view, grants):
    return all(fact(view, grants) for fact in FACTS)


# What the facts speak of


def without_admin(grants):
    """The devices of results without admin access, each with its claim, in order."""
    return [(result.device, granted.key) for granted in grants for result in granted.results if not result.admin]


def drawn(view, counter, grants):
    """What held devices and the results without admin access draw from a counter."""
    devices = [device for device, _ in view.held + without_admin(grants)]
    return sum(amount for device in devices for other, amount in view.draws(device) if other == counter)


def is_covered(view, counter, grants):
    return drawn(view, counter, grants) <= view.value(counter)


def tolerates(toleration, taint):
    """The effect is empty or the taint's. With Exists the key is empty or the taint's; else key and value are."""
    if toleration.effect not in ("", taint.effect):
        return False
    if toleration.operator == "Exists":
        return toleration.key in ("", taint.key)
    return (toleration.key, toleration.value) == (taint.key, taint.value)


def is_tolerated(view, way, device):
    return all(any(tolerates(one, taint) for one in way.tolerations) for taint in view.taints(device))


def is_named(constraint, result):
    """An empty list of requests names all results, and a request names those of its subrequests."""
    names = constraint.requests
    return not names or result.name in names or result.name.partition("/")[0] in names


def constraint_holds(view, constraint, results):
    values = [view.attribute(one.device, constraint.attribute) for one in results if is_named(constraint, one)]
    return not values or values[0] is not None and all(value == values[0] for value in values)
