"""The objects of the API, with the fields that are kept of them."""

from dataclasses import dataclass, field

from values import Key

# Objects of these kinds are in a namespace.
NAMESPACED = ("ResourceClaim", "Pod")


@dataclass
class Metadata:
    key: Key
    labels: dict
    version: int | None


@dataclass
class NodeObject:
    metadata: Metadata
    kind = "Node"


@dataclass
class Requirement:
    """What a node selector's term asks of a label, or of the node's name."""

    key: str
    operator: str
    values: list


@dataclass
class NodeChoice:
    """Which nodes see a slice or a device: `nodeName`, the term of `nodeSelector`, or `allNodes`."""

    name: str | None = None
    expressions: list | None = None
    fields: list | None = None
    everywhere: bool = False


@dataclass
class Taint:
    """What keeps requests off a device that don't tolerate it. A missing value is empty."""

    key: str
    value: str
    effect: str


@dataclass
class Toleration:
    """Which taints a request puts up with. What is missing is empty; `operator` is Equal or Exists."""

    key: str
    operator: str
    value: str
    effect: str


@dataclass
class Device:
    name: str
    attributes: dict = field(default_factory=dict)
    capacity: dict = field(default_factory=dict)
    draws: list = field(default_factory=list)
    sets: list = field(default_factory=list)
    nodes: NodeChoice | None = None
    taints: list = field(default_factory=list)


@dataclass
class SliceObject:
    """A ResourceSlice. Without `nodes` each device has its own: `perDeviceNodeSelection`."""

    metadata: Metadata
    driver: str
    pool: str
    generation: int
    slice_count: int
    nodes: NodeChoice | None
    counters: dict
    devices: list
    kind = "ResourceSlice"


@dataclass
class ClassObject:
    metadata: Metadata
    selectors: list
    kind = "DeviceClass"


@dataclass
class Way:
    """One way to meet a request: `exactly`, or an item of `firstAvailable`. `count` is None for the mode All."""

    label: str
    device_class: str
    selectors: list
    count: int | None
    admin: bool
    tolerations: list = field(default_factory=list)


@dataclass
class Request:
    name: str
    ways: list


@dataclass
class Constraint:
    requests: list
    attribute: tuple


@dataclass
class ClaimObject:
    metadata: Metadata
    requests: list
    constraints: list
    kind = "ResourceClaim"


@dataclass
class PodObject:
    """A Pod, with the name of each entry and the name of its claim."""

    metadata: Metadata
    entries: list
    kind = "Pod"


@dataclass(frozen=True)
class Result:
    """A device of a claim's grant, under the name of its request."""

    name: str
    device: str
    admin: bool


@dataclass
class Status:
    """What a write of a claim's status asks for."""

    metadata: Metadata
    node: str
    results: list
