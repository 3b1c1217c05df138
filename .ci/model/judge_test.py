"""Tests of the judge of journals: it takes those that are right, and of each that was spoiled in one way it names the
line that isn't right, and why.

usage: python3 .ci/model/judge_test.py
"""

import json
import random
import re
import unittest

from crew import journal_of
from judge import Limits, Wrong, judged
from random_script import document, selectors
from together_script import script as together_script

DRIVER = "gpu.example.com"
G = f"{DRIVER}/n1"


# Documents


def node(name):
    return document("v1", "Node", name)


def device_class(name, *texts):
    return document("resource.k8s.io/v1", "DeviceClass", name, spec={"selectors": selectors(texts)})


def resource_slice(*devices, on="n1"):
    pool = {"name": on, "generation": 1, "resourceSliceCount": 1}
    spec = {"driver": DRIVER, "nodeName": on, "pool": pool, "devices": [{"name": name} for name in devices]}
    return document("resource.k8s.io/v1", "ResourceSlice", f"{on}-s", spec=spec)


def claim(name, *classes):
    requests = [{"name": one, "exactly": {"deviceClassName": one}} for one in classes or ("gpu",)]
    return document("resource.k8s.io/v1", "ResourceClaim", name, "default", spec={"devices": {"requests": requests}})


def pod(name, *claims):
    entries = [{"name": one, "resourceClaimName": one} for one in claims]
    return document("v1", "Pod", name, "default", spec={"resourceClaims": entries})


def command(kind, name="", **members):
    return {"apiVersion": "dra.replay/v1", "kind": kind, "name": name, **members}


def together(*commands):
    return command("Together", commands=commands)


def script_of(*documents):
    return "".join(json.dumps(one) + "\n" for one in documents).encode()


# Journals that are right, each with its script


def plan(pod, at, grants, joins="-"):
    return f"default/{pod} n1 at={at} passed=- grants={grants} joins={joins}"


# Two pods find the same device.
TWO = script_of(
    *(node("n1"), device_class("gpu"), resource_slice("d0", "d1"), claim("a"), claim("b")),
    *(pod("pa", "a"), pod("pb", "b"), together(command("Schedule", "pa"), command("Schedule", "pb"))),
)
TWO_LINES = f"""\
1 1 applied Node n1
2 2 applied DeviceClass gpu
3 3 applied ResourceSlice n1-s
4 4 applied ResourceClaim default/a
5 5 applied ResourceClaim default/b
6 6 applied Pod default/pa
7 7 applied Pod default/pb
8 9 reserved {plan("pb", 7, f"default/b:gpu@{G}/d0")}
9 9 wrote default/pb default/b seen=5
10 9 bound default/pb n1
11 8 refused {plan("pa", 7, f"default/a:gpu@{G}/d0")} why=Held:{G}/d0:default/b
12 8 reserved {plan("pa", 11, f"default/a:gpu@{G}/d1")}
13 8 wrote default/pa default/a seen=4
14 8 bound default/pa n1
summary entries=14 commands=9 granted=2 bound=2
"""

# Two pods share a claim, whose version changes between the reservation and the write of one of them.
SHARED = script_of(
    *(node("n1"), device_class("gpu"), resource_slice("d0"), claim("c"), pod("p", "c"), pod("q", "c")),
    together(command("Schedule", "p"), command("Schedule", "q")),
)
SHARED_LINES = f"""\
1 1 applied Node n1
2 2 applied DeviceClass gpu
3 3 applied ResourceSlice n1-s
4 4 applied ResourceClaim default/c
5 5 applied Pod default/p
6 6 applied Pod default/q
7 7 reserved {plan("p", 6, f"default/c:gpu@{G}/d0")}
8 8 reserved {plan("q", 7, "-", "default/c")}
9 7 wrote default/p default/c seen=4
10 8 conflict default/q default/c had=4 now=9
11 8 unreserved default/q
12 7 bound default/p n1
13 8 reserved {plan("q", 12, "-", "default/c")}
14 8 wrote default/q default/c seen=9
15 8 bound default/q n1
summary entries=15 commands=8 granted=1 bound=2
"""

# Plans and verdicts over several nodes, and commands that are refused. A selector has an error on the device of n2.
CAUSES = script_of(
    *(node("n1"), node("n2"), device_class("gpu"), device_class("bad", "1 / 0 == 1")),
    *(resource_slice("d0", on="n2"), claim("a"), claim("b", "bad")),
    *(pod("pa", "a"), pod("pb", "b"), pod("pc", "x", "y")),
    *(command("Schedule", "pa"), command("Schedule", "pb"), command("Schedule", "pc"), command("Schedule", "pa")),
    together(command("Delete", "a", target="ResourceClaim"), claim("a"), claim("a", "bad"), command("Release", "pb")),
    together(command("Release", "pa"), command("Schedule", "a b\nc"), command("Schedule", "pb")),
    {"apiVersion": "v1", "kind": "List", "items": []},
)
FAULT = f"default/b:bad:0:{DRIVER}/n2/d0:DivByZero"
CAUSES_LINES = f"""\
1 1 applied Node n1
2 2 applied Node n2
3 3 applied DeviceClass gpu
4 4 applied DeviceClass bad
5 5 applied ResourceSlice n2-s
6 6 applied ResourceClaim default/a
7 7 applied ResourceClaim default/b
8 8 applied Pod default/pa
9 9 applied Pod default/pb
10 10 applied Pod default/pc
11 11 reserved default/pa n2 at=10 passed=n1:unsat grants=default/a:gpu@{DRIVER}/n2/d0 joins=-
12 11 wrote default/pa default/a seen=6
13 11 bound default/pa n2
14 12 verdict default/pb fault at=13 nodes=n1:unsat,n2:fault:{FAULT}
15 13 verdict default/pc missing at=14 claim=default/x
16 14 denied Bound n2
17 15 denied InUse ResourceClaim default/a
18 18 denied NotBound default/pb
19 17 denied Immutable ResourceClaim default/a
20 16 applied ResourceClaim default/a
21 21 verdict default/pb fault at=20 nodes=n1:unsat,n2:fault:{FAULT}
22 20 denied NotFound Pod default/a b?c
23 19 released default/pa
summary entries=23 commands=21 granted=0 bound=0
"""

# A pod that two jobs schedule, and a slice that goes between a search and its plan.
GOES = script_of(
    *(node("n1"), device_class("gpu"), resource_slice("d0"), claim("c"), pod("p", "c")),
    together(command("Schedule", "p"), command("Delete", "n1-s", target="ResourceSlice"), command("Schedule", "p")),
    together(resource_slice("d0", "d1"), command("Schedule", "p"), command("Schedule", "p")),
)
GOES_LINES = f"""\
1 1 applied Node n1
2 2 applied DeviceClass gpu
3 3 applied ResourceSlice n1-s
4 4 applied ResourceClaim default/c
5 5 applied Pod default/p
6 7 deleted ResourceSlice n1-s
7 6 refused {plan("p", 5, f"default/c:gpu@{G}/d0")} why=DeviceGone:{G}/d0
8 8 verdict default/p unsatisfiable at=6 nodes=n1:unsat
9 6 verdict default/p unsatisfiable at=7 nodes=n1:unsat
10 9 applied ResourceSlice n1-s
11 11 reserved {plan("p", 10, f"default/c:gpu@{G}/d0")}
12 10 denied Busy 11
13 11 wrote default/p default/c seen=4
14 11 bound default/p n1
summary entries=14 commands=11 granted=1 bound=1
"""

# The kubelet of n1.
KUBELET = TWO + script_of(
    *(command("Prepare", "pa"), command("Prepare", "pc"), command("Reopen"), command("Unprepare", "pa")),
    *(command("Unprepare", "pa"), command("Reopen")),
)
KUBELET_LINES = TWO_LINES.replace(
    "summary entries=14 commands=9",
    f"""\
- 10 prepared default/pa default/a {DRIVER}/device=00000000-0000-4000-8000-000000000004-d1
- 11 prepare-refused default/pc NotFound
- 12 reopened claims=1
- 13 unprepared default/pa default/a
- 14 unprepare-refused default/pa default/a NotPrepared
- 15 reopened claims=0
summary entries=14 commands=15""",
)


def spoiled(text, first, *lines, count=1):
    """The text with these lines in place of so many, from the first on."""
    old = text.splitlines(True)
    old[first - 1 : first - 1 + count] = [line + "\n" for line in lines]
    return "".join(old)


class JournalTest(unittest.TestCase):
    def is_right(self, script, text, status=0, **limits):
        self.assertEqual(judged(script, text.encode(), Limits(**limits)), status)

    def is_wrong(self, script, text, line, why, **limits):
        with self.assertRaises(Wrong) as raised:
            judged(script, text.encode(), Limits(**limits))
        self.assertEqual((raised.exception.line, raised.exception.why), (line, why))

    def test_right_journals(self):
        self.is_right(TWO, TWO_LINES)
        self.is_right(TWO, TWO_LINES, workers=2, attempts=2, entries=14)
        self.is_right(SHARED, SHARED_LINES, workers=64)
        self.is_right(CAUSES, CAUSES_LINES)
        self.is_right(GOES, GOES_LINES)
        self.is_right(KUBELET, KUBELET_LINES, node="n1")
        self.is_right(b"", "summary entries=0 commands=0 granted=0 bound=0\n")

    # What a search finds, and where

    def test_device_twice(self):
        twice = spoiled(TWO_LINES, 11, "11 8 reserved " + plan("pa", 7, f"default/a:gpu@{G}/d0"))
        why = f"the plan's first failure here is Held:{G}/d0:default/b, so it is refused with that"
        self.is_wrong(TWO, twice, 11, why)

    def test_device_that_a_search_does_not_find(self):
        other = spoiled(TWO_LINES, 8, "8 9 reserved " + plan("pb", 7, f"default/b:gpu@{G}/d1"))
        self.is_wrong(TWO, other, 8, f"over the state at 7 a search gives `grants=default/b:gpu@{G}/d0`")

    def test_place_of_a_search(self):
        for at, why in (
            (11, "at=11 is past the 10 entries before it"),
            (6, "at=6 is before 7, where the entries of its command begin"),
            ("07", "at=07 is no place"),
            ("-1", "at=-1 is no place"),
            (9, f"over the state at 9 a search gives `grants=default/a:gpu@{G}/d1`"),
        ):
            self.is_wrong(TWO, TWO_LINES.replace("default/pa n1 at=7", f"default/pa n1 at={at}"), 11, why)
        early = TWO_LINES.replace("at=11", "at=10")
        self.is_wrong(TWO, early, 12, "at=10 is before 11, where its job's previous entry is")
        early = SHARED_LINES.replace("at=12", "at=10")
        self.is_wrong(SHARED, early, 13, "at=10 is before 11, where its job's previous entry is")

    def test_pod_of_a_search(self):
        other = spoiled(TWO_LINES, 8, "8 9 reserved " + plan("pa", 7, f"default/a:gpu@{G}/d0"))
        self.is_wrong(TWO, other, 8, "its pod is default/pa, and job 9 schedules default/pb")
        busy = spoiled(GOES_LINES, 12, "12 10 verdict default/p unsatisfiable at=11 nodes=n1:unsat")
        self.is_wrong(GOES, busy, 12, "over the state at 11 the pod default/p isn't idle")
        gone = spoiled(TWO_LINES, 15, "15 10 verdict default/px unsatisfiable at=14 nodes=n1:unsat")
        script = TWO + script_of(command("Schedule", "px"))
        self.is_wrong(script, gone, 15, "over the state at 14 the pod default/px isn't there")

    def test_causes(self):
        for cause in ("budget", "other:default/a", "unsat,n2:unsat"):
            other = CAUSES_LINES.replace("passed=n1:unsat", f"passed=n1:{cause}")
            self.is_wrong(CAUSES, other, 11, "over the state at 10 a search gives `passed=n1:unsat`")
        due = f"nodes=n1:unsat,n2:fault:{FAULT}"
        for old, new in ((":bad:0:", ":bad:1:"), ("DivByZero", "NoKey"), ("n1:unsat,", ""), ("n2/d0:", "n2/d1:")):
            other = spoiled(CAUSES_LINES, 14, "14 12 verdict default/pb fault at=13 " + due.replace(old, new))
            self.is_wrong(CAUSES, other, 14, f"over the state at 13 a search gives `{due}`")
        word = CAUSES_LINES.replace("pb fault at=13", "pb unsatisfiable at=13")
        self.is_wrong(CAUSES, word, 14, "over the state at 13 a search gives `fault`")
        missing = CAUSES_LINES.replace("claim=default/x", "claim=default/y")
        self.is_wrong(CAUSES, missing, 15, "over the state at 14 a search gives `claim=default/x`")

    def test_budget(self):
        """With one item the search of n2 ends at the empty list."""
        short = spoiled(CAUSES_LINES, 11, "11 11 verdict default/pa budget at=10 nodes=n1:unsat,n2:budget", count=3)
        due = "verdict default/pa budget at=10 nodes=n1:unsat,n2:budget"
        self.is_wrong(CAUSES, CAUSES_LINES, 11, f"over the state at 10 a search gives `{due}`", budget=1)
        due = "reserved or refused " + CAUSES_LINES.splitlines()[10].partition("reserved ")[2]
        self.is_wrong(CAUSES, short, 11, f"over the state at 10 a search gives `{due}`", budget=2)

    def test_stale_verdict(self):
        """A verdict over an older state than the job's own last entry; and none where there is an allocation."""
        stale = GOES_LINES.replace("at=7 nodes", "at=6 nodes")
        self.is_wrong(GOES, stale, 9, "at=6 is before 7, where its job's previous entry is")
        none = spoiled(TWO_LINES, 12, "12 8 verdict default/pa unsatisfiable at=11 nodes=n1:unsat", count=3)
        due = plan("pa", 11, f"default/a:gpu@{G}/d1")
        self.is_wrong(TWO, none, 12, f"over the state at 11 a search gives `reserved or refused {due}`")

    def test_failure(self):
        due = f"the plan's first failure here is DeviceGone:{G}/d0, so it is refused with that"
        for why in ("NodeGone:n1", f"DeviceGone:{G}/d1", f"Held:{G}/d0:default/c"):
            self.is_wrong(GOES, GOES_LINES.replace(f"DeviceGone:{G}/d0", why), 7, due)
        refused = TWO_LINES.replace("8 9 reserved", "8 9 refused").replace(
            "d0 joins=-\n9", f"d0 joins=- why=Held:{G}/d0:default/a\n9"
        )
        self.is_wrong(TWO, refused, 8, "the plan doesn't fail here, so it is reserved")
        found = plan("p", 10, f"default/c:gpu@{G}/d0")
        busy = spoiled(GOES_LINES, 12, f"12 10 refused {found} why=ClaimChanged:default/c")
        self.is_wrong(GOES, busy, 12, "the pod default/p isn't idle here, so `denied Busy 11` is due")

    # The order of a job's entries

    def test_write(self):
        blind = spoiled(SHARED_LINES, 10, "10 8 wrote default/q default/c seen=9")
        why = "the pod's first claim whose use isn't written has another version than the job reserved"
        self.is_wrong(SHARED, blind, 10, f"{why}, so `conflict default/q default/c had=4 now=9` is due")
        other = SHARED_LINES.replace("had=4 now=9", "had=4 now=8")
        self.is_wrong(SHARED, other, 10, f"{why}, so `conflict default/q default/c had=4 now=9` is due")
        why = "the pod's first claim whose use isn't written has the version that the job reserved"
        seen = TWO_LINES.replace("seen=5", "seen=4")
        self.is_wrong(TWO, seen, 9, f"{why}, so `wrote default/pb default/b seen=5` is due")
        needless = spoiled(TWO_LINES, 9, "9 9 conflict default/pb default/b had=5 now=8")
        self.is_wrong(TWO, needless, 9, f"{why}, so `wrote default/pb default/b seen=5` is due")
        unwritten = spoiled(TWO_LINES, 9, "9 9 bound default/pb n1", count=2)
        self.is_wrong(TWO, unwritten, 9, f"{why}, so `wrote default/pb default/b seen=5` is due")
        node = TWO_LINES.replace("bound default/pb n1", "bound default/pb n2")
        self.is_wrong(TWO, node, 10, "all uses of the pod are written, so `bound default/pb n1` is due")

    def test_no_unreserved(self):
        lines = "11 7 bound default/p n1", "12 8 reserved " + plan("q", 11, "-", "default/c")
        without = spoiled(SHARED_LINES, 11, *lines, count=3)
        self.is_wrong(SHARED, without, 12, "job 8 is in conflict, so `reserved` can't be next; unreserved can")
        needless = spoiled(SHARED_LINES, 9, "9 7 unreserved default/p")
        why = "job 7 has reserved, so `unreserved` can't be next; wrote or conflict or bound can"
        self.is_wrong(SHARED, needless, 9, why)

    def test_attempts(self):
        contended = spoiled(SHARED_LINES, 13, "13 8 contended default/q attempts=1", count=3)
        contended = contended.replace("entries=15", "entries=13").replace("bound=2", "bound=1")
        self.is_right(SHARED, contended, attempts=1)
        self.is_wrong(SHARED, contended, 13, "job 8 has failed 1 of 2 attempts, not all", attempts=2)
        why = "job 8 has failed 1 of 1 attempts, so `reserved` can't be next; contended can"
        self.is_wrong(SHARED, SHARED_LINES, 13, why, attempts=1)
        number = contended.replace("attempts=1", "attempts=2")
        why = "job 8 has no attempt left, so `contended default/q attempts=1` is due"
        self.is_wrong(SHARED, number, 13, why, attempts=1)
        early = spoiled(SHARED_LINES, 7, "7 7 contended default/p attempts=0")
        why = "job 7 has no entry yet, so `contended` can't be next; reserved or refused or verdict or denied can"
        self.is_wrong(SHARED, early, 7, why)

    def test_after_the_end(self):
        second = spoiled(GOES_LINES, 9, "9 8 verdict default/p unsatisfiable at=8 nodes=n1:unsat")
        self.is_wrong(GOES, second, 9, "job 8 ended at 8")
        second = spoiled(TWO_LINES, 11, "11 9 bound default/pb n1")
        self.is_wrong(TWO, second, 11, "job 9 ended at 10")
        second = spoiled(GOES_LINES, 7, "7 7 deleted ResourceSlice n1-s")
        self.is_wrong(GOES, second, 7, "job 7 ended at 6")

    # Commands that aren't Schedules, and refusals

    def test_refusals(self):
        first = "this is the first refusal of the command that holds here"
        due = f"{first}, so `denied InUse ResourceClaim default/a` is due"
        for line in ("deleted ResourceClaim default/a", "denied NotFound ResourceClaim default/a"):
            self.is_wrong(CAUSES, spoiled(CAUSES_LINES, 17, f"17 15 {line}"), 17, due)
        due = "no refusal of the command holds here, so `applied ResourceClaim default/a` is due"
        for line in ("denied Immutable ResourceClaim default/a", "applied ResourceClaim default/b"):
            self.is_wrong(CAUSES, spoiled(CAUSES_LINES, 20, f"20 16 {line}"), 20, due)
        denied = spoiled(TWO_LINES, 8, "8 9 denied Bound n1")
        self.is_wrong(TWO, denied, 8, "no refusal of the Schedule holds here")
        first = "this is the first refusal of the Schedule that holds here"
        other = GOES_LINES.replace("denied Busy 11", "denied Bound n1")
        self.is_wrong(GOES, other, 12, f"{first}, so `denied Busy 11` is due")
        other = CAUSES_LINES.replace("a b?c", "a b\x0bc")
        self.is_wrong(CAUSES, other, 22, f"{first}, so `denied NotFound Pod default/a b?c` is due")

    # Lines, their order and their number

    def test_foreign_job(self):
        for number in (7, 10, 99):
            foreign = spoiled(TWO_LINES, 9, f"9 {number} wrote default/pb default/b seen=5")
            why = f"job {number} isn't of the command whose entries are due, which has jobs 8 to 9"
            self.is_wrong(TWO, foreign, 9, why)
        swapped = spoiled(TWO_LINES, 2, "2 3 applied ResourceSlice n1-s", "3 2 applied DeviceClass gpu", count=2)
        self.is_wrong(TWO, swapped, 2, "job 3 isn't of the command whose entries are due, which has job 2")
        early = spoiled(GOES_LINES, 9, "9 9 applied ResourceSlice n1-s")
        self.is_wrong(GOES, early, 9, "job 9 isn't of the command whose entries are due, which has jobs 6 to 8")

    def test_order_of_lines(self):
        lines = TWO_LINES.splitlines(True)
        by_job = "".join(lines[:7] + lines[10:14] + lines[7:10] + lines[14:])
        self.is_wrong(TWO, by_job, 8, "its place is 11, and 8 is due")
        self.is_wrong(TWO, spoiled(TWO_LINES, 9), 9, "its place is 10, and 9 is due")
        self.is_wrong(TWO, spoiled(TWO_LINES, 9, *[lines[8].strip()] * 2), 10, "its place is 9, and 10 is due")

    def test_workers(self):
        why = "comes before the end of job"
        self.is_wrong(TWO, TWO_LINES, 8, f"job 9 {why} 8, which has the same worker", workers=1)
        in_turn = spoiled(
            TWO_LINES,
            8,
            "8 8 reserved " + plan("pa", 7, f"default/a:gpu@{G}/d0"),
            "9 8 wrote default/pa default/a seen=4",
            "10 8 bound default/pa n1",
            f"11 9 refused {plan('pb', 7, f'default/b:gpu@{G}/d0')} why=Held:{G}/d0:default/a",
            "12 9 reserved " + plan("pb", 11, f"default/b:gpu@{G}/d1"),
            "13 9 wrote default/pb default/b seen=5",
            "14 9 bound default/pb n1",
            count=7,
        )
        self.is_right(TWO, in_turn, workers=2)
        ended = "at=7 is before 10, where job 8 ended, which has the same worker"
        self.is_wrong(TWO, in_turn, 11, ended, workers=1)
        self.is_right(CAUSES, CAUSES_LINES, workers=4)
        self.is_wrong(CAUSES, CAUSES_LINES, 18, f"job 18 {why} 16, which has the same worker", workers=2)

    def test_form_of_lines(self):
        self.is_wrong(TWO, spoiled(TWO_LINES, 9, "9 9 wrote"), 9, "an entry has its place, its job, its kind and more")
        why = "job 9 has reserved, so `writes` can't be next; wrote or conflict or bound can"
        self.is_wrong(TWO, spoiled(TWO_LINES, 9, "9 9 writes default/pb default/b seen=5"), 9, why)
        extra = spoiled(TWO_LINES, 8, TWO_LINES.splitlines()[7] + " why=-")
        self.is_wrong(TWO, extra, 8, "a reserved has pod, node, at=, passed=, grants=, joins=")
        blank = TWO_LINES.replace("9 9 wrote default/pb default/b", "9 9 wrote default/pb  default/b")
        why = "the pod's first claim whose use isn't written has the version that the job reserved"
        self.is_wrong(TWO, blank, 9, f"{why}, so `wrote default/pb default/b seen=5` is due")

    def test_summary(self):
        for name, why in (
            ("entries=15", "entries=15, and the entries are 14"),
            ("commands=8", "commands=8, and the commands are 9"),
            ("granted=3", "granted=3, and the claims with a grant are 2"),
            ("bound=1", "bound=1, and the pods that are bound are 2"),
        ):
            self.is_wrong(TWO, re.sub(f"{name.partition('=')[0]}=\\d+\\b", name, TWO_LINES), 15, why)
        early = spoiled(TWO_LINES, 14)
        self.is_wrong(TWO, early, 14, "the summary comes before the end: job 8 hasn't ended")
        self.is_wrong(TWO, spoiled(TWO_LINES, 15), 15, "the text ends here, where the summary is due")
        self.is_wrong(TWO, spoiled(TWO_LINES, 11, count=5), 11, "the text ends here, where job 8 hasn't ended")
        self.is_wrong(TWO, spoiled(TWO_LINES, 8, count=8), 8, "the text ends here, where jobs 8 to 9 haven't all ended")
        self.is_wrong(TWO, TWO_LINES + "summary\n", 16, "nothing may follow the summary")
        self.is_wrong(TWO, TWO_LINES[:-1], 15, "it has no line end")
        due = "summary entries=14 commands=9 granted=2 bound=2"
        more = spoiled(TWO_LINES, 15, "15 8 bound default/pa n1")
        self.is_wrong(TWO, more, 15, f"all jobs have ended, so `{due}` is due")

    def test_limit(self):
        for entries in (3, 7, 8, 9, 11, 13):
            self.is_right(TWO, spoiled(TWO_LINES, entries + 1, count=15), 8, entries=entries)
        short = spoiled(TWO_LINES, 10, count=15)
        self.is_wrong(TWO, short, 10, "the text ends here, where jobs 8 to 9 haven't all ended", entries=10)
        self.is_wrong(TWO, TWO_LINES, 11, "nothing may follow the limit of 10 entries", entries=10)
        self.is_wrong(TWO, spoiled(TWO_LINES, 14), 14, "nothing may follow the limit of 13 entries", entries=13)
        failed = spoiled(SHARED_LINES, 12, count=15)
        self.is_right(SHARED, failed, 8, entries=11, attempts=1)

    def test_bad_document(self):
        lines = spoiled(TWO_LINES, 15)
        self.is_right(TWO + b"{}", lines, 3)
        self.is_right(TWO + b"{", lines, 3)
        self.is_right(TWO + script_of(together()) + TWO, lines, 3)
        why = "nothing may follow the last command, since the script isn't whole and has no summary"
        self.is_wrong(TWO + b"x", TWO_LINES, 15, why)

    def test_kubelet(self):
        due = f"- 10 prepared default/pa default/a {DRIVER}/device=00000000-0000-4000-8000-000000000004-d1"
        self.is_wrong(KUBELET, KUBELET_LINES.replace("000004-d1", "000004-d0"), 15, f"`{due}` is due", node="n1")
        self.is_wrong(KUBELET, KUBELET_LINES, 15, "`- 10 prepare-refused default/pa default/a OtherNode` is due")
        asleep = KUBELET_LINES.replace("claims=0", "claims=1")
        self.is_wrong(KUBELET, asleep, 20, "`- 15 reopened claims=0` is due", node="n1")

    # Random journals

    def test_random_journals(self):
        """Steps that come in a random order make a journal that is right. Any digit of it that is changed makes it
        wrong on that line or behind it, but for the place of a search, over whose neighbour the same may be found."""
        for seed in range(8):
            script = together_script(seed, members=8, togethers=1)
            chance = random.Random(seed)
            limits = Limits(attempts=chance.choice((1, 2, 32)), workers=chance.choice((2, 3, 64)))
            text, status = journal_of(script, limits, chance)
            self.assertEqual(judged(script, text.encode(), limits), status)
            for number, line in enumerate(text.splitlines(), 1):
                rest = re.sub(r"at=\d+", lambda at: "_" * len(at[0]), line)
                digit = chance.choice([one.start() for one in re.finditer(r"\d", rest)])
                other = line[:digit] + str((int(line[digit]) + chance.randint(1, 9)) % 10) + line[digit + 1 :]
                with self.assertRaises(Wrong) as raised:
                    judged(script, spoiled(text, number, other).encode(), limits)
                self.assertGreaterEqual(raised.exception.line, number)


if __name__ == "__main__":
    unittest.main()
