"""Prints a random script: a few nodes, classes and slices, and then objects, Schedules, Releases and Deletes in any
order, many of which are refused. This compares what the proved program makes of some with what the definitions say:

    for seed in $(seq 100); do
        python3 .ci/model/random_script.py $seed > script.json
        ./dra replay --budget 5 < script.json | diff - <(python3 .ci/model/replay.py 5 < script.json) || echo $seed
    done

usage: python3 .ci/model/random_script.py SEED [COMMANDS]
"""

import json
import random
import sys

DRIVER = "gpu.example.com"
KIND = f'device.attributes["{DRIVER}"].kind'
SELECTORS = ("true", f'{KIND} == "a"', f"has({KIND})", f'has({KIND}) && {KIND} == "b"')
CLASSES = ("gpu", "some")


def document(api, kind, name, namespace=None, **members):
    metadata = {"name": name} | ({"namespace": namespace} if namespace else {})
    return {"apiVersion": api, "kind": kind, "metadata": metadata | members.pop("metadata", {}), **members}


def selectors(texts):
    return [{"cel": {"expression": text}} for text in texts]


class Generator:
    """Random documents. There are at most four nodes, and as many slices, devices of each, claims and pods as is said
    here, at most."""

    slices = 4
    devices = (1, 4)
    claims = 8
    pods = 10

    def __init__(self, seed):
        self.random = random.Random(seed)
        self.nodes = self.random.randint(1, 4)
        self.last = {}

    def chance(self, percent):
        return self.random.randrange(100) < percent

    def pick(self, items):
        return self.random.choice(items)

    def one_of(self, letter, count):
        """A name of a letter and a number below the count."""
        return f"{letter}{self.random.randrange(count)}"

    def node(self, number):
        labels = {"zone": self.pick("ab")}
        return document("v1", "Node", f"n{number}", metadata={"labels": labels})

    def device_class(self, name):
        texts = [] if name == "gpu" else [self.pick(SELECTORS)]
        return document("resource.k8s.io/v1", "DeviceClass", name, spec={"selectors": selectors(texts)})

    def device(self, number, counted):
        device = {"name": f"d{number}"}
        if self.chance(80):
            device["attributes"] = {"kind": {"string": self.pick("ab")}}
        if counted and self.chance(70):
            amount = {"memory": {"value": str(self.random.randint(0, 3))}}
            device["consumesCounters"] = [{"counterSet": "set", "counters": amount}]
        if self.chance(15):
            taint = {"key": self.pick(("slow", "broken")), "effect": self.pick(("NoSchedule", "NoExecute"))}
            device["taints"] = [taint | ({"value": "v"} if self.chance(30) else {})]
        return device

    def pool(self, number, first):
        """Pools 0 and 1 have counters, in a slice of their own, so they have two slices; the others have one."""
        slices = 2 if number < 2 else 1
        pool = {"name": f"pool{number}", "generation": 1, "resourceSliceCount": slices}
        if not first:
            pool["generation"] = self.pick((1, 1, 1, 2))
            pool["resourceSliceCount"] = self.pick((slices, slices, slices, slices, 3 - slices))
        return pool

    def slice(self, number, first=False):
        spec = {"driver": DRIVER, "pool": self.pool(number, first)}
        counted = number < 2 or self.chance(3)
        spec["devices"] = [self.device(i, counted) for i in range(self.random.randint(*self.devices))]
        spec |= {"allNodes": True} if self.chance(30) else {"nodeName": f"n{number % self.nodes}"}
        return document("resource.k8s.io/v1", "ResourceSlice", f"s{number}", spec=spec)

    def counters(self, number, first=False):
        spec = {"driver": DRIVER, "pool": self.pool(number, first), "allNodes": True}
        sets = ("set", "set") if self.chance(3) else ("set",)
        amount = {"memory": {"value": str(self.random.randint(1, 5))}}
        spec["sharedCounters"] = [{"name": name, "counters": amount} for name in sets]
        return document("resource.k8s.io/v1", "ResourceSlice", f"c{number}", spec=spec)

    def way(self, exactly):
        way = {"deviceClassName": self.pick(("gpu", "gpu", "some"))}
        if self.chance(25):
            way["selectors"] = selectors([self.pick(SELECTORS)])
        way |= {"allocationMode": "All"} if self.chance(10) else {"count": self.pick((1, 1, 1, 2))}
        if exactly and self.chance(10):
            way["adminAccess"] = True
        if self.chance(25):
            toleration = {"operator": "Exists"} if self.chance(50) else {"key": "slow", "value": self.pick(("", "v"))}
            way["tolerations"] = [toleration | ({"effect": "NoSchedule"} if self.chance(30) else {})]
        return way

    def request(self, number):
        if self.chance(80):
            return {"name": f"r{number}", "exactly": self.way(True)}
        return {"name": f"r{number}", "firstAvailable": [{"name": f"x{i}"} | self.way(False) for i in range(2)]}

    def claim(self, number):
        devices = {"requests": [self.request(i) for i in range(self.pick((1, 1, 1, 2)))]}
        if self.chance(20):
            devices["constraints"] = [{"matchAttribute": f"{DRIVER}/kind"}]
        return document("resource.k8s.io/v1", "ResourceClaim", f"c{number}", "default", spec={"devices": devices})

    def pod(self, number):
        names = [self.one_of("c", self.claims) for _ in range(self.pick((0, 1, 1, 1, 2, 2)))]
        entries = [{"name": f"e{i}", "resourceClaimName": name} for i, name in enumerate(names)]
        return document("v1", "Pod", f"p{number}", "default", spec={"resourceClaims": entries})

    def same_or_new(self, make, number):
        """An object, which is mostly the last one of its name, so that not every update is refused."""
        known = (make.__name__, number)
        if known not in self.last or self.chance(30):
            self.last[known] = make(number)
        return self.last[known]

    def command(self, kind, name, **members):
        return {"apiVersion": "dra.replay/v1", "kind": kind, "namespace": "default", "name": name, **members}

    def delete(self):
        kind, name = self.pick(
            [("Pod", self.one_of("p", self.pods)), ("ResourceClaim", self.one_of("c", self.claims))] * 3
            + [("ResourceSlice", self.one_of("s", self.slices)), ("ResourceSlice", self.one_of("c", 2))]
            + [("Node", "n0"), ("DeviceClass", self.pick(CLASSES))]
        )
        return self.command("Delete", name, target=kind)

    def next(self):
        """A command; Schedules and Releases come most often."""
        return self.random.choices(
            (
                lambda: self.same_or_new(self.claim, self.random.randrange(self.claims)),
                lambda: self.same_or_new(self.pod, self.random.randrange(self.pods)),
                lambda: self.command("Schedule", self.one_of("p", self.pods + 1)),
                lambda: self.command("Release", self.one_of("p", self.pods + 1)),
                lambda: self.slice(self.random.randrange(self.slices)),
                lambda: self.counters(self.random.randrange(2)),
                lambda: self.node(self.random.randrange(self.nodes + 1)),
                self.delete,
            ),
            (14, 16, 34, 18, 4, 2, 3, 10),
        )[0]()

    def script(self, commands):
        documents = [self.node(i) for i in range(self.nodes)] + [self.device_class(name) for name in CLASSES]
        documents += [self.slice(i, first=True) for i in range(self.random.randint(1, 4))]
        documents += [self.counters(i, first=True) for i in range(2)]
        documents += [self.claim(i) for i in range(8)] + [self.pod(i) for i in range(5)]
        return documents + [self.next() for _ in range(commands)]


def main():
    seed = int(sys.argv[1])
    commands = int(sys.argv[2]) if len(sys.argv) > 2 else 40
    for one in Generator(seed).script(commands):
        print(json.dumps(one))


if __name__ == "__main__":
    main()
