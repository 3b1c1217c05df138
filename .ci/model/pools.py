"""Pools of ResourceSlices, which devices a node sees, and what these devices have drawn from counters."""

from dataclasses import dataclass

import selector_texts
from fields import whole_of_label
from objects import Device, SliceObject, Way
from values import Key


@dataclass
class Fault:
    """A selector that is neither true nor false of a device: its index and the word of its error."""

    index: int
    word: str


@dataclass
class PoolDevice:
    """A device of a usable pool."""

    slice: SliceObject
    device: Device

    def __post_init__(self):
        self.id = f"{self.driver}/{self.slice.pool}/{self.device.name}"

    @property
    def driver(self):
        return self.slice.driver

    @property
    def attributes(self):
        return self.device.attributes

    @property
    def capacity(self):
        return self.device.capacity

    @property
    def draws(self):
        """The counters of its pool that the device draws on, each as driver, pool, set and name, with the amounts."""
        one = self.slice
        return [((one.driver, one.pool, name, key), amount) for name, key, amount in self.device.draws]

    @property
    def taints(self):
        return self.device.taints


# Visibility


def requirement_holds(requirement, value):
    """Whether a requirement holds of the value of a label, which is None if the node has no such label."""
    operator, values = requirement.operator, requirement.values
    if operator == "In":
        return value in values
    if operator == "NotIn":
        return value not in values
    if operator == "Exists":
        return value is not None
    if operator == "DoesNotExist":
        return value is None
    number = None if value is None else whole_of_label(value)
    bound = whole_of_label(values[0])
    return number is not None and (number > bound if operator == "Gt" else number < bound)


def names_node(choice, node):
    """Whether `nodeName`, `nodeSelector` or `allNodes` is for the node. A term without requirements is for none."""
    if choice.everywhere:
        return True
    if choice.name is not None:
        return choice.name == node.metadata.key.name
    if not choice.expressions and not choice.fields:
        return False
    return all(requirement_holds(one, node.metadata.labels.get(one.key)) for one in choice.expressions) and all(
        requirement_holds(one, node.metadata.key.name) for one in choice.fields
    )


def sees_device(node, one, device):
    """Whether a device of a slice is visible: the slice's field decides, or with `perDeviceNodeSelection` its own."""
    return names_node(one.nodes or device.nodes, node)


def sees_slice(node, one):
    """Whether a slice is visible: one of its devices is, or its own field says so."""
    return one.nodes is not None and names_node(one.nodes, node) or any(
        sees_device(node, one, device) for device in one.devices
    )


# Pools


def pools(state):
    """The pools in the order of driver and pool name: each is its slices of its highest generation, by name."""
    all_pools = {}
    for one in state.objects("ResourceSlice"):
        all_pools.setdefault((one.driver.encode(), one.pool.encode()), []).append(one)
    lists = []
    for _, slices in sorted(all_pools.items()):
        highest = max(one.generation for one in slices)
        pool = [one for one in slices if one.generation == highest]
        lists.append(sorted(pool, key=lambda one: one.metadata.key.name.encode()))
    return lists


def is_complete(pool):
    """There are as many slices as each of them says."""
    return all(one.slice_count == len(pool) for one in pool)


def counters(pool):
    """What the counters of a pool have, by set and name."""
    return {(name, key): value for one in pool for name, found in one.counters.items() for key, value in found.items()}


def is_invalid(pool):
    """Two slices disagree on their number, a device name or a set name comes twice, or a device draws from a set or
    a counter that the pool doesn't have."""
    devices = [device for one in pool for device in one.devices]
    names = [device.name for device in devices]
    sets = [name for one in pool for name in one.counters]
    return (
        len({one.slice_count for one in pool}) > 1
        or len(set(names)) < len(names)
        or len(set(sets)) < len(sets)
        or any(name not in sets for device in devices for name in device.sets)
        or any((name, key) not in counters(pool) for device in devices for name, key, _ in device.draws)
    )


def is_usable(pool):
    return is_complete(pool) and not is_invalid(pool)


@dataclass
class FaultAt:
    """Where a fault is: the claim, the way, the id of the device, and the fault."""

    claim: Key
    way: Way
    device: str
    fault: Fault


class NodeView:
    """What an allocation on a node goes by: its devices in order, those that claims hold, and the counters."""

    def __init__(self, state, name):
        self.state = state
        self.node = state.node(name)
        every = pools(state)
        self.in_pools = {}
        self.counters = {}
        self.devices = []
        for pool in filter(is_usable, every):
            for (name, key), value in counters(pool).items():
                self.counters[pool[0].driver, pool[0].pool, name, key] = value
        for one in (one for pool in every if is_usable(pool) for one in pool):
            for device in one.devices:
                found = PoolDevice(one, device)
                self.in_pools[found.id] = found
                if self.node and sees_device(self.node, one, device):
                    self.devices.append(found)
        self.ids = [device.id for device in self.devices]
        unusable = [one for pool in every if not is_usable(pool) for one in pool]
        self.broken = self.node is not None and any(sees_slice(self.node, one) for one in unusable)
        self.held = state.held()
        self.holders = dict(self.held)
        self.known = {}

    def in_order(self, devices):
        """Some devices of the node in the order of their positions, each once."""
        return [device for device in self.ids if device in devices]

    def attribute(self, device, name):
        """The type and the value of an attribute of a device; None if there is none."""
        return self.in_pools[device].attributes.get(name) if device in self.in_pools else None

    def draws(self, device):
        """What a device draws: nothing if it is in no usable pool."""
        return self.in_pools[device].draws if device in self.in_pools else []

    def value(self, counter):
        """What a counter of a usable pool has."""
        return self.counters[counter]

    def taints(self, device):
        """The taints of a device of a usable pool."""
        return self.in_pools[device].taints if device in self.in_pools else []

    def evaluate(self, way, device):
        """Yes, No or a Fault: what the selectors of the class and then of the request evaluate to on a device. The
        first that isn't true decides, and without the class it is No."""
        stored = self.state.tables["DeviceClass"].get(Key("", way.device_class))
        if stored is None:
            return "No"
        for index, text in enumerate(stored.object.selectors + way.selectors):
            try:
                if not selector_texts.evaluate(text, device):
                    return "No"
            except selector_texts.SelectorError as error:
                return Fault(index, str(error))
        return "Yes"

    def values(self, way):
        """The node's devices in order, each with what it evaluates to; kept, since it is asked for often."""
        if id(way) not in self.known:
            self.known[id(way)] = [(device, self.evaluate(way, device)) for device in self.devices]
        return self.known[id(way)]

    def matching(self, way):
        """The ids of the node's devices that match, in order."""
        return [device.id for device, value in self.values(way) if value == "Yes"]

    def first_fault(self, grants):
        """The first request that has a fault, and the first device on which it has one; None if there is none."""
        for granted in grants:
            for way in granted.ways:
                for device, value in self.values(way):
                    if isinstance(value, Fault):
                        return FaultAt(granted.key, way, device.id, value)
        return None
