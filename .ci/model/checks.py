"""The first failure of a plan, and of a write of a claim's status, against a state, with its text in the journal.
None means that nothing fails."""

from dataclasses import dataclass

import rules
from pools import NodeView
from values import printed_quantity


@dataclass
class Plan:
    """What a search found for a pod: a node, and the results of the claims that were searched, as pairs of key and
    results. It knew the pod's uid, and of each claim of the pod its key, its uid and the node of its grant, or None."""

    pod_uid: int
    known: list
    node: str
    grants: list


def failure_of_plan(state, pod, plan):
    return failure_of_knowledge(state, pod, plan) or failure_of_grants(
        state, state.wanted(pod), plan.node, plan.grants
    )


def failure_of_knowledge(state, pod, plan):
    """What the plan knew of the pod and of its claims has to be so still."""
    for claim, _, _ in plan.known:
        if claim not in state.claims:
            return f"ClaimGone:{claim}"
    if pod not in state.pods or state.pods[pod].uid != plan.pod_uid:
        return f"ClaimChanged:{pod}"
    for claim, uid, node in plan.known:
        if state.claims[claim].uid != uid or state.node_of_grant(claim) != node:
            return f"ClaimChanged:{claim}"
    for claim, _, _ in plan.known:
        if not state.has_room(claim, pod):
            return f"Users:{claim}"
    return None


def failure_of_status(state, claim, status):
    """The plan is here the claim's results on the node of the status."""
    return failure_of_grants(state, [claim], status.node, [(claim, status.results)])


def failure_of_grants(state, claims, node, results):
    """The first failure of results, pairs of key and results, for these claims on a node: kind by kind, and within
    one kind the first claim and result. There is none if and only if they are an allocation."""
    view = NodeView(state, node)
    if not rules.node_known(view, []):
        return f"NodeGone:{node}"
    for _, devices in results:
        for result in devices:
            if result.device not in view.ids:
                return f"DeviceGone:{result.device}"
    grants, failure = shaped(state, view, claims, results)
    if failure is None:
        failure = (
            failure_of_matches(view, grants)
            or failure_of_taints(view, grants)
            or failure_of_holders(view, grants)
            or failure_of_counters(view, grants)
            or failure_of_constraints(view, grants)
        )
        assert rules.is_allocation(view, grants) == (failure is None), "no failure means an allocation"
    return failure


def shaped(state, view, claims, results):
    """The claims with their results and the ways that the results' names pick, and the failure if there are results
    of another claim, or not those that the claim's requests ask for."""
    grants = []
    for index, key in enumerate(claims):
        if index >= len(results) or results[index][0] != key:
            return grants, f"Shape:{key}"
        granted = rules.choice_of_names(key, state.claims[key].object, results[index][1])
        if granted is None or not has_shape(view, granted):
            return grants, f"Shape:{key}"
        grants.append(granted)
    if len(results) > len(claims):
        return grants, f"Shape:{results[len(claims)][0]}"
    return grants, None


def has_shape(view, granted):
    return len(granted.results) <= rules.MOST_RESULTS and all(
        fact(view, [granted]) for fact in (rules.in_order, rules.exact_count, rules.all_devices, rules.distinct)
    )


def failure_of_matches(view, grants):
    """A device that doesn't match its request; or the first request of the choice with a selector that is neither
    true nor false of a device of the node, and the first such device."""
    for granted in grants:
        for way in granted.ways:
            for result in granted.results_of(way):
                if view.evaluate(way, view.in_pools[result.device]) == "No":
                    return f"SelectorNo:{result.device}"
    fault = view.first_fault(grants)
    return f"SelectorFault:{fault.device}" if fault else None


def failure_of_taints(view, grants):
    """A device with a taint that no toleration of its request tolerates."""
    for granted in grants:
        for way in granted.ways:
            for result in granted.results_of(way):
                if not rules.is_tolerated(view, way, result.device):
                    return f"Tainted:{result.device}"
    return None


def failure_of_holders(view, grants):
    """A device that a claim holds, or that the plan has granted to an earlier claim."""
    granted = {}
    for device, key in rules.without_admin(grants):
        if device in view.holders:
            return f"Held:{device}:{view.holders[device]}"
        if granted.setdefault(device, key) != key:
            return f"Held:{device}:{granted[device]}"
    return None


def failure_of_counters(view, grants):
    """A counter that isn't covered: of the first result, in the order of its list and then of the names."""
    for device, _ in rules.without_admin(grants):
        for counter, _ in view.draws(device):
            if not rules.is_covered(view, counter, grants):
                numbers = rules.drawn(view, counter, grants), view.value(counter)
                return f"Counter:{counter[2]}/{counter[3]}:" + ":".join(map(printed_quantity, numbers))
    return None


def failure_of_constraints(view, grants):
    for granted in grants:
        for index, constraint in enumerate(granted.claim.constraints):
            if not rules.constraint_holds(view, constraint, granted.results):
                return f"Constraint:{granted.key}:{index}"
    return None
