"""Prints the script that `exercise` replays, a document a line: four nodes of eight devices each, and as many pods as
asked for, each with a claim of its own; after some of them an earlier pod is released.

usage: python3 .ci/model/exercise_script.py FROM PODS
"""

import json
import sys


class Generator:
    """A linear congruential generator of 64 bits; a draw is the upper 31 bits of the next number."""

    def __init__(self, number):
        self.number = number

    def draw(self):
        self.number = (self.number * 6364136223846793005 + 1442695040888963407) % 2**64
        return self.number >> 33


def resource(kind, name, spec, **metadata):
    return {"apiVersion": "resource.k8s.io/v1", "kind": kind, "metadata": metadata | {"name": name}, "spec": spec}


def node(i):
    return {"apiVersion": "v1", "kind": "Node", "metadata": {"name": f"n{i}"}}


def slice_of(i):
    pool = {"name": f"n{i}", "generation": 1, "resourceSliceCount": 1}
    devices = [{"name": f"d{k}"} for k in range(8)]
    return resource("ResourceSlice", f"s{i}", {"driver": "gpu.example.com", "nodeName": f"n{i}", "pool": pool, "devices": devices})


def claim(i, count):
    exactly = {"deviceClassName": "gpu", "count": count}
    return resource("ResourceClaim", f"c{i}", {"devices": {"requests": [{"name": "gpu", "exactly": exactly}]}}, namespace="default")


def pod(i):
    spec = {"resourceClaims": [{"name": "g", "resourceClaimName": f"c{i}"}]}
    return {"apiVersion": "v1", "kind": "Pod", "metadata": {"namespace": "default", "name": f"p{i}"}, "spec": spec}


def command(kind, i):
    return {"apiVersion": "dra.replay/v1", "kind": kind, "namespace": "default", "name": f"p{i}"}


def documents(start, pods):
    generator = Generator(start)
    yield from (node(i) for i in range(4))
    yield resource("DeviceClass", "gpu", {})
    yield from (slice_of(i) for i in range(4))
    for i in range(pods):
        yield claim(i, 1 + generator.draw() % 2)
        yield pod(i)
        yield command("Schedule", i)
        if generator.draw() % 4 == 0 and i > 0:
            yield command("Release", generator.draw() % i)


def text(start, pods):
    return "".join(json.dumps(document, separators=(",", ":")) + "\n" for document in documents(start, pods))


if __name__ == "__main__":
    sys.stdout.write(text(int(sys.argv[1]), int(sys.argv[2])))
