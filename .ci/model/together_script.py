"""Prints a random script whose commands run at once: objects, and then Togethers, most of whose members are Schedules
of pods that want more devices than there are. Several pods share a claim; and among the Schedules claims get another
version, slices, classes and nodes are changed, and pods are released and deleted.

usage: python3 .ci/model/together_script.py SEED [MEMBERS [TOGETHERS]]
"""

import json
import sys

from random_script import CLASSES, Generator

MOST_MEMBERS = 256


class TogetherGenerator(Generator):
    """Random Togethers of at most that many members, with as many pods, and a quarter as many devices in eight slices:
    64 for 256 members."""

    slices = 8

    def __init__(self, seed, members):
        super().__init__(seed)
        self.members = members
        self.pods = members
        self.claims = max(members * self.random.choice((1, 2, 4)) // 4, 1)
        self.changes = self.random.choice((0, 5, 30))
        self.devices = (max(members // 32, 1),) * 2

    def way(self, exactly):
        """As a rule one device of any kind, so that pods are in each other's way."""
        return {"deviceClassName": "gpu"} if self.chance(70) else super().way(exactly)

    def member(self):
        """A Schedule, or what may change what a search has seen."""
        if not self.chance(self.changes):
            return self.command("Schedule", self.one_of("p", self.pods))
        number = self.random.randrange(self.claims)
        return self.random.choices(
            (
                lambda: self.same_or_new(self.claim, number),
                lambda: self.same_or_new(self.pod, self.random.randrange(self.pods)),
                lambda: self.command("Release", self.one_of("p", self.pods)),
                lambda: self.slice(self.random.randrange(self.slices)),
                lambda: self.counters(self.random.randrange(2)),
                lambda: self.device_class(self.pick(CLASSES)),
                lambda: self.node(self.random.randrange(self.nodes + 1)),
                self.delete,
            ),
            (12, 2, 8, 3, 1, 1, 1, 4),
        )[0]()

    def together(self):
        """Each pod is scheduled once as a rule, so that pods rather than jobs of one pod are beside each other."""
        pods = [self.command("Schedule", f"p{number}") for number in range(self.pods)]
        self.random.shuffle(pods)
        count = self.random.randint(1, self.members) if self.chance(30) else self.members
        members = [self.member() if self.chance(self.changes) else pods.pop() for _ in range(count)]
        return {"apiVersion": "dra.replay/v1", "kind": "Together", "commands": members}

    def togethers(self, count):
        documents = [self.node(i) for i in range(self.nodes)] + [self.device_class(name) for name in CLASSES]
        documents += [self.slice(i, first=True) for i in range(self.slices)]
        documents += [self.counters(i, first=True) for i in range(2)]
        documents += [self.same_or_new(self.claim, i) for i in range(self.claims)]
        documents += [self.same_or_new(self.pod, i) for i in range(self.pods)]
        for _ in range(count):
            documents.append(self.together())
            documents += [self.next() for _ in range(self.random.randrange(4))]
        return documents


def script(seed, members, togethers):
    """The bytes of a script, each document on a line of its own."""
    documents = TogetherGenerator(seed, min(members, MOST_MEMBERS)).togethers(togethers)
    return "".join(json.dumps(one) + "\n" for one in documents).encode()


def main():
    seed, members, togethers = [int(word) for word in sys.argv[1:]] + [24, 2][len(sys.argv) - 2 :]
    sys.stdout.buffer.write(script(seed, members, togethers))


if __name__ == "__main__":
    main()
