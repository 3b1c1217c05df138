"""Prints a large script, a document a line: nodes with a slice each, and pods with a claim each, scheduled one by one.

usage: python3 .ci/model/load_script.py WORK [SIZE]      WORK: one of those below; SIZE: its own size if not given

plain      SIZE nodes of 8 devices, and pods for 5 in 6 of these devices
mixed      the same with selectors, requests of 1 to 4 devices, and every third pod released again
slices     SIZE slices of 32 devices with attributes
pools      SIZE slices of one device, each the only one of its pool
pool       a slice of counters, and SIZE slices of a device that draws from one, all of one pool; then all deleted again
deletes    SIZE Deletes of pods that aren't there
verdicts   1,024 nodes of one device, each held, and SIZE pods for which no node has one
updates    64 nodes of 8 devices, and SIZE pods, with an update of a slice before each
shared     one claim, and SIZE pods that use it
waiting    512 nodes of 8 devices, and SIZE pods with a claim each, none of them scheduled
together   the same, and then 200 times 64 of the pods scheduled at once, and released at once
"""

import json
import random
import sys

DRIVER = "gpu.example.com"


def resource(kind, name, spec, **metadata):
    return {"apiVersion": "resource.k8s.io/v1", "kind": kind, "metadata": metadata | {"name": name}, "spec": spec}


def node(i):
    return {"apiVersion": "v1", "kind": "Node", "metadata": {"name": f"node-{i:05}"}}


def slice_of(i, devices):
    pool = {"name": f"node-{i:05}", "generation": 1, "resourceSliceCount": 1}
    return resource("ResourceSlice", f"slice-{i:05}", {"driver": DRIVER, "nodeName": f"node-{i:05}", "pool": pool, "devices": devices})


def device(k):
    return {"name": f"gpu-{k}", "attributes": {"model": {"string": "ab"[k % 2]}, "index": {"int": k}}}


def gpu_class(selected):
    selectors = [{"cel": {"expression": f"device.driver == '{DRIVER}'"}}]
    return resource("DeviceClass", "gpu", {"selectors": selectors} if selected else {})


def claim(i, **asked):
    exactly = {"deviceClassName": "gpu"} | asked
    return resource("ResourceClaim", f"claim-{i}", {"devices": {"requests": [{"name": "gpu", "exactly": exactly}]}}, namespace="default")


def pod(i, claimed):
    spec = {"resourceClaims": [{"name": "gpu", "resourceClaimName": f"claim-{claimed}"}]}
    return {"apiVersion": "v1", "kind": "Pod", "metadata": {"namespace": "default", "name": f"pod-{i}"}, "spec": spec}


def command(kind, i):
    return {"apiVersion": "dra.replay/v1", "kind": kind, "namespace": "default", "name": f"pod-{i}"}


def cluster(nodes, devices, selected=False):
    yield gpu_class(selected)
    for i in range(nodes):
        yield node(i)
        yield slice_of(i, [device(k) for k in range(devices)])


def scheduled(i, **asked):
    yield claim(i, **asked)
    yield pod(i, i)
    yield command("Schedule", i)


def plain(nodes):
    yield from cluster(nodes, 8)
    for i in range(nodes * 20 // 3):
        yield from scheduled(i)


def mixed(nodes):
    draws = random.Random(1)
    yield from cluster(nodes, 8, selected=True)
    bound = []
    for i in range(nodes * 20 // 3):
        model = f"device.attributes['{DRIVER}'].model == '{draws.choice('ab')}'"
        yield from scheduled(i, selectors=[{"cel": {"expression": model}}], count=draws.randint(1, 4))
        bound.append(i)
        if i % 3 == 2:
            yield command("Release", bound.pop(draws.randrange(len(bound))))


def slices(count):
    for i in range(count):
        yield slice_of(i, [device(k) for k in range(32)])


def pools(count):
    for i in range(count):
        yield slice_of(i, [device(0)])


def pool(count):
    of = {"driver": DRIVER, "allNodes": True, "pool": {"name": "all", "generation": 1, "resourceSliceCount": count + 1}}
    counters = {"sharedCounters": [{"name": "memory", "counters": {"bytes": {"value": str(count)}}}]}
    yield resource("ResourceSlice", "counters", of | counters)
    drawn = {"consumesCounters": [{"counterSet": "memory", "counters": {"bytes": {"value": "1"}}}]}
    for i in range(count):
        yield resource("ResourceSlice", f"slice-{i:05}", of | {"devices": [{"name": f"gpu-{i}"} | drawn]})
    for name in ["counters"] + [f"slice-{i:05}" for i in range(count)]:
        yield {"apiVersion": "dra.replay/v1", "kind": "Delete", "target": "ResourceSlice", "name": name}


def deletes(count):
    for i in range(count):
        yield command("Delete", i) | {"target": "Pod"}


def verdicts(pods):
    yield from cluster(1024, 1)
    for i in range(1024 + pods):
        yield from scheduled(i)


def updates(pods):
    yield from cluster(64, 8)
    for i in range(pods):
        yield slice_of(i % 64, [device(k) for k in range(8)])
        yield from scheduled(i)


def shared(pods):
    yield from cluster(64, 8)
    yield claim(0)
    for i in range(pods):
        yield pod(i, 0)
        yield command("Schedule", i)


def waiting(pods):
    yield from cluster(512, 8)
    for i in range(pods):
        yield claim(i)
        yield pod(i, i)


def together(pods):
    yield from waiting(pods)
    for step in range(200):
        first = 64 * (step % 48)
        for kind in ("Schedule", "Release"):
            members = [command(kind, i) for i in range(first, first + 64)]
            yield {"apiVersion": "dra.replay/v1", "kind": "Together", "commands": members}


WORKS = {
    "plain": (plain, 256),
    "mixed": (mixed, 256),
    "slices": (slices, 1000),
    "pools": (pools, 2000),
    "pool": (pool, 1000),
    "deletes": (deletes, 20000),
    "verdicts": (verdicts, 1000),
    "updates": (updates, 400),
    "shared": (shared, 200),
    "waiting": (waiting, 10000),
    "together": (together, 10000),
}


def text(work, size=None):
    """The script of a work, as bytes."""
    documents, usual = WORKS[work]
    return b"".join(json.dumps(it, separators=(",", ":")).encode() + b"\n" for it in documents(size or usual))


if __name__ == "__main__":
    if len(sys.argv) not in (2, 3) or sys.argv[1] not in WORKS:
        sys.exit(__doc__)
    sys.stdout.buffer.write(text(sys.argv[1], int(sys.argv[2]) if len(sys.argv) == 3 else None))
