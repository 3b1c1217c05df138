"""The state of a cluster: its objects with their uids and versions, who was granted what, and the phases of pods. A
uid and a version are the index of the entry that created the object, or that changed it last."""

from dataclasses import dataclass, field, replace

from objects import NAMESPACED
from values import Key

WRITTEN = "written"


@dataclass
class Stored:
    """An object of the state."""

    object: object
    uid: int
    version: int


@dataclass
class Grant:
    """The node and the results of a claim's allocation."""

    node: str
    results: list


@dataclass
class StoredClaim(Stored):
    """A claim. Its users are pods, each with the version of the claim that it assumed, or WRITTEN."""

    grant: Grant | None = None
    users: dict = field(default_factory=dict)


@dataclass
class Taken:
    job: int
    node: str


@dataclass
class Bound:
    node: str


@dataclass
class StoredPod(Stored):
    """A pod. Its phase is None (idle), Taken or Bound."""

    phase: Taken | Bound | None = None


STORED = {"ResourceClaim": StoredClaim, "Pod": StoredPod}


class State:
    """The tables of objects. A change puts another object in the place of the one that is stored."""

    def __init__(self):
        self.tables = {kind: {} for kind in ("Node", "ResourceSlice", "DeviceClass", "ResourceClaim", "Pod")}

    def copy(self):
        """The state as it is now, which later changes leave as it is."""
        other = State()
        other.tables = {kind: dict(table) for kind, table in self.tables.items()}
        return other

    @property
    def claims(self):
        return self.tables["ResourceClaim"]

    @property
    def pods(self):
        return self.tables["Pod"]

    def objects(self, kind):
        return [stored.object for stored in self.tables[kind].values()]

    def node_names(self):
        """The names of the nodes, in the order of their bytes."""
        return sorted((key.name for key in self.tables["Node"]), key=str.encode)

    def node(self, name):
        """The node of that name, or None."""
        stored = self.tables["Node"].get(Key("", name))
        return stored and stored.object

    def claims_of_pod(self, pod):
        """The keys of a pod's claims, each at its first place."""
        keys = []
        for _, name in self.pods[pod].object.entries:
            key = Key(pod.namespace, name)
            if key not in keys:
                keys.append(key)
        return keys

    def wanted(self, pod):
        """The claims of a pod that are there and have no grant."""
        return [key for key in self.claims_of_pod(pod) if key in self.claims and not self.claims[key].grant]

    def joined(self, pod):
        """The claims of a pod that have a grant."""
        return [key for key in self.claims_of_pod(pod) if key in self.claims and self.claims[key].grant]

    def node_of_grant(self, claim):
        grant = self.claims[claim].grant
        return grant.node if grant else None

    def has_room(self, claim, pod):
        """A claim has at most 256 users."""
        users = self.claims[claim].users
        return len(users) < 256 or pod in users

    def is_bound(self, pod):
        return isinstance(self.pods[pod].phase, Bound)

    def is_user(self, pod):
        return any(pod in claim.users for claim in self.claims.values())

    def held(self):
        """The pairs of a device and a claim whose grant has it without admin access."""
        return [
            (result.device, key)
            for key, claim in self.claims.items()
            if claim.grant
            for result in claim.grant.results
            if not result.admin
        ]

    def count_of_devices(self, left_out=None):
        """How many devices all slices have together, but for one slice."""
        return sum(len(one.devices) for one in self.objects("ResourceSlice") if one.metadata.key != left_out)

    # The changes

    def put(self, new, at):
        """Creates an object, or updates it: it keeps its uid, a claim its grant and users, a pod its phase."""
        table = self.tables[new.kind]
        key = new.metadata.key
        if key in table:
            table[key] = replace(table[key], object=new, version=at)
        else:
            table[key] = STORED.get(new.kind, Stored)(new, at, at)

    def take_away(self, kind, key):
        del self.tables[kind][key]

    def change_claim(self, key, **changes):
        self.claims[key] = replace(self.claims[key], **changes)

    def change_phase(self, pod, phase):
        self.pods[pod] = replace(self.pods[pod], phase=phase)

    def use(self, pod, claim, use):
        """Makes the pod a user of a claim, or its use another one."""
        self.change_claim(claim, users={**self.claims[claim].users, pod: use})

    def reserve(self, pod, job, node, grants):
        """Makes the grants, makes the pod an assumed user of all its claims, and takes the pod."""
        for claim, results in grants:
            self.change_claim(claim, grant=Grant(node, results))
        for claim in self.claims_of_pod(pod):
            self.use(pod, claim, self.claims[claim].version)
        self.change_phase(pod, Taken(job, node))

    def write(self, pod, claim, at):
        """Writes the pod's use of a claim."""
        self.use(pod, claim, WRITTEN)
        self.change_claim(claim, version=at)

    def give_up(self, pod, at):
        """Takes the pod's uses away. A claim whose written use goes has another version, and the last user of a claim
        takes its grant along."""
        for key, claim in list(self.claims.items()):
            if pod not in claim.users:
                continue
            users = {user: use for user, use in claim.users.items() if user != pod}
            version = at if claim.users[pod] == WRITTEN else claim.version
            self.change_claim(key, users=users, version=version, grant=claim.grant if users else None)
        self.change_phase(pod, None)

    def bind(self, pod):
        self.change_phase(pod, Bound(self.pods[pod].phase.node))

    def adopt(self, claim, node, results, at):
        """Makes the grant that a write of the claim's status asks for."""
        self.change_claim(claim, grant=Grant(node, results), version=at)


def key_for(kind, namespace, name):
    """The key of an object that a command names; a kind without namespaces doesn't look at the namespace."""
    return Key(namespace if kind in NAMESPACED else "", name)
