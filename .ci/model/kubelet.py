"""The kubelet of a node, for a replay: what a Prepare, an Unprepare and a Reopen print, what the driver is asked, and what
the checkpoint holds.

The kubelet keeps a table of the claims that it prepares, with their pods and devices, in the journal of its checkpoint. A
claim is prepared for a pod if it has a grant, the pod's use of it is written, and the grant is on the kubelet's node: else
the first of these that isn't so refuses it, NotAllocated, NotReserved or OtherNode; and Full refuses a claim that isn't in
the table while 1,024 are. A claim that is prepared gets one pod more, if it hasn't this one, and nobody is asked. Another is
recorded as begun, the driver is asked, and it is recorded as prepared; where it was begun before it keeps the pods that it
had. The devices are those that the claim has as it is begun. A claim that isn't in the table for the pod is NotPrepared. One
that isn't leaving, and has other pods, loses this one; else it is recorded as leaving, the driver is asked, and it is recorded
as gone. Where the driver fails, that is DriverFault, and what was recorded stays. The claims of a pod are taken in its order,
each once, and the first refusal ends the command; if the pod isn't there, that is NotFound.

The checkpoint is opened at the first of these commands, and made if it is empty.
"""

from checkpoint import BEGUN, GONE, LEAVING, PREPARED, Disk, Full, Journal, PlainDisk, Record, make_file
from documents import Prepare, Reopen
from state import WRITTEN

MOST_CLAIMS = 1024
HALF = 4_194_304


class Refused(Exception):
    """The word of a refusal."""


class Driver:
    """A driver that does what it is asked, but for the call of the number `failing`. A call is P to prepare or U to take
    back, with `!` behind it if it failed."""

    def __init__(self, failing=0):
        self.failing = failing
        self.calls = []

    def ask(self, kind):
        fails = len(self.calls) + 1 == self.failing
        self.calls.append(kind + ("!" if fails else ""))
        if fails:
            raise Refused("DriverFault")


class KeptDisk(Disk):
    """A disk that keeps what a crash may leave at each moment."""

    def length(self):
        self.call()
        return len(self.data)


class NodeDisk(PlainDisk):
    """A disk whose call of a number fails and does nothing."""

    def __init__(self, data=b"", failing=0):
        super().__init__(bytearray(data))
        self.failing = failing

    def write(self, at, more):
        self.call()
        self.data[at : at + len(more)] = more

    def cut(self, length):
        self.call()
        del self.data[length:]

    def sync(self):
        self.call()

    def length(self):
        self.call()
        return len(self.data)


def uid_text(uid):
    return f"00000000-0000-4000-8000-{uid:012x}"


def name_of(uid, device):
    """The name that the driver knows a device of a claim by."""
    driver, _, rest = device.partition("/")
    return f"{driver}/device={uid}-{rest.rpartition('/')[2]}"


class Kubelet:
    """The kubelet of a node, over a disk and a driver."""

    def __init__(self, node, disk=None, driver=None):
        self.node = node
        self.disk = disk or NodeDisk()
        self.driver = driver or Driver()
        self.journal = None

    def open(self):
        if self.disk.length() == 0:
            make_file(self.disk, HALF)
        self.journal = Journal(self.disk, HALF)

    def lines(self, number, asked, state):
        """The lines of a command of the kubelet, without their line ends."""
        if self.journal is None:
            self.open()
        if isinstance(asked, Reopen):
            self.journal = Journal(self.disk, HALF)
            return [f"- {number} reopened claims={len(self.journal.rows)}"]
        verb, do = ("prepare", self.prepare) if isinstance(asked, Prepare) else ("unprepare", self.unprepare)
        pod = asked.pod
        if pod not in state.pods:
            return [f"- {number} {verb}-refused {pod} NotFound"]
        lines = []
        for key in state.claims_of_pod(pod):
            try:
                rest = do(pod, key, state.claims.get(key))
            except Refused as refusal:
                return lines + [f"- {number} {verb}-refused {pod} {key} {refusal}"]
            lines.append(f"- {number} {verb}d {pod} {key}{rest}")
        return lines

    def row(self, uid):
        return next((row for row in self.journal.rows if row.uid == uid), None)

    def record(self, kind, uid, key="", pods=(), devices=()):
        try:
            self.journal.append(Record(kind, uid, key, tuple(pods), tuple(devices)))
        except Full:
            raise Refused("Full") from None

    def prepare(self, pod, key, claim):
        """What the line has behind the claim."""
        self.look(pod, claim)
        uid = uid_text(claim.uid)
        row = self.row(uid)
        if row and row.state == PREPARED:
            if str(pod) not in row.pods:
                self.record(PREPARED, uid, row.key, [*row.pods, str(pod)], row.devices)
            return self.names(uid)
        if row is None and len(self.journal.rows) >= MOST_CLAIMS:
            raise Refused("Full")
        pods = list(row.pods) if row and row.state == BEGUN else []
        pods += [] if str(pod) in pods else [str(pod)]
        devices = [result.device for result in claim.grant.results]
        self.record(BEGUN, uid, str(key), pods, devices)
        self.driver.ask("P")
        self.record(PREPARED, uid, str(key), pods, devices)
        return self.names(uid)

    def look(self, pod, claim):
        """Refuses a claim that isn't to be prepared for the pod on this node."""
        if claim is None or claim.grant is None:
            raise Refused("NotAllocated")
        if claim.users.get(pod) != WRITTEN:
            raise Refused("NotReserved")
        if claim.grant.node != self.node:
            raise Refused("OtherNode")

    def names(self, uid):
        return " " + ",".join(name_of(uid, device) for device in self.row(uid).devices)

    def unprepare(self, pod, _key, claim):
        """What the line has behind the claim, which is nothing."""
        uid = uid_text(claim.uid) if claim else None
        row = self.row(uid)
        if row is None or str(pod) not in row.pods:
            raise Refused("NotPrepared")
        others = [one for one in row.pods if one != str(pod)]
        if row.state != LEAVING and others:
            self.record(row.state, uid, row.key, others, row.devices)
            return ""
        self.record(LEAVING, uid)
        self.driver.ask("U")
        self.record(GONE, uid)
        return ""
