"""Reads the cases of servers over connections in memory, and prints how each ends, what each connection got and what was
printed. The head of crates/server_cases/stdin says what a case may be.

Workers step in turn by chance. A case whose workers run beside each other is made many times, each time in another order,
and has to print the same in each.

usage: python3 .ci/model/server_cases.py < crates/server_cases/stdin
"""

import random
import sys
from functools import lru_cache

from jobs import History, HistoryFull, Job, Schedule
from replies import UNREAD, Failed, Server, command_of, failure, look, reply_to_job
from requests import MOST_REQUESTS, NotYet, Refused, is_blank, next_request

ORDERS = 40
PLAIN = {
    "workers": 1,
    "connections": None,
    "entries": 10**6,
    "piece": 65_536,
    "fail-door": 0,
    "fail-write": 0,
    "fail-call": 0,
    "mixed": 0,
    "settling": 0,
    "settled": 0,
    "held": 0,
    "until": 0,
    "reserved": 0,
    "last": 0,
}
SEARCHED = "searched"
RESERVED = "reserved"
ENDED = "ended"


# Connections


class Broken(Exception):
    """A read or a write of a connection failed."""


class Connection:
    """A connection whose client sends these bytes, of which a read returns so many, and a call of which may fail."""

    def __init__(self, sent, piece, failing):
        self.sent = sent
        self.piece = piece
        self.failing = failing
        self.calls = 0
        self.read = 0
        self.at = 0
        self.replies = []

    def call(self):
        self.calls += 1
        if self.calls == self.failing:
            raise Broken

    def next_request(self):
        """The next request; None if there is none more. It reads no more than it needs."""
        while True:
            try:
                request, length = cut_request(self.sent[self.at : self.read])
                self.at += length
                return request
            except NotYet:
                self.call()
            if self.read == len(self.sent):
                if is_blank(self.sent[self.at :]):
                    return None
                raise Refused("EndedEarly")
            self.read = min(self.read + self.piece, len(self.sent))

    def write(self, reply):
        self.call()
        self.replies.append(reply)


@lru_cache(maxsize=4096)
def cut_request(content):
    return next_request(content)


# Gates


class Gate:
    """Of two jobs, `until` waits where it has searched first until `held` has come to a point, and `held` there until
    `until` has ended."""

    def __init__(self, held, point, until):
        self.held = held
        self.point = point
        self.until = until
        self.arrived = self.searched = self.ended = False

    def reached(self, job, point):
        """What the job waits for."""
        if job == self.until:
            if point == ENDED:
                self.ended = True
            if point == SEARCHED and not self.searched:
                self.searched = True
                return lambda: self.arrived
        elif job == self.held and point == self.point:
            self.arrived = True
            return lambda: self.ended
        return lambda: True


# The server


class Run:
    """A server, whose workers are steps: each step says what the worker waits for then."""

    def __init__(self, sent, options):
        self.options = options
        self.history = History(options["entries"])
        self.server = Server(self.history)
        self.ended = {}
        self.ends = set()
        self.jobs = 0
        self.gates = [
            Gate(options["settling"], ENDED, options["settled"]),
            Gate(options["held"], RESERVED if options["reserved"] else SEARCHED, options["until"]),
        ]
        self.connections = [
            Connection(one, max(options["piece"], 1), 0 if index else options["fail-call"]) for index, one in enumerate(sent)
        ]

    def worker(self, first):
        """Serves the connections of a worker."""
        count = self.options["connections"]
        last = len(self.connections) if count is None else count
        for number in range(first, last + 1, self.options["workers"]):
            if self.options["fail-door"] == number + 1 or number > len(self.connections):
                self.ends.add("door")
                return
            connection = self.connections[number - 1]
            try:
                yield from self.serve(connection, number)
                is_full = False
            except HistoryFull:
                is_full = True
            except Broken:
                is_full = False
            self.ended[number] = "".join(connection.replies)
            if is_full:
                self.ends.add("limit")
                return
            yield lambda: True

    def serve(self, connection, number):
        """Serves the requests of a connection."""
        for index in range(1, MOST_REQUESTS + 1):
            try:
                request = connection.next_request()
            except Refused as why:
                if why.args[0] in UNREAD:
                    connection.write(failure(UNREAD[why.args[0]]))
                return
            if request is None:
                return
            yield lambda: True
            try:
                reply = yield from self.reply_to(request, 65_536 * number + index)
            except Failed as why:
                reply = failure(why.args[0])
            connection.write(reply)
            if request.last:
                return

    def reply_to(self, request, number):
        found = command_of(request)
        if found is None:
            return look(self.server, request)
        command, document, code = found
        job = Job(number, command)
        while job.end is None:
            before, count = job.found, len(self.history.lines)
            job.step(self.history)
            if isinstance(command, Schedule):
                if job.end is not None:
                    yield self.reached(number, ENDED)
                elif job.found is not None and job.found is not before:
                    yield self.reached(number, SEARCHED)
                elif len(self.history.lines) > count and self.history.lines[-1].split(" ")[2] == "reserved":
                    yield self.reached(number, RESERVED)
                else:
                    yield lambda: True
        self.jobs += 1
        return reply_to_job(self.server, request, document, code, self.history.lines[job.end - 1])

    def reached(self, job, point):
        waits = [gate.reached(job, point) for gate in self.gates]
        return lambda: all(wait() for wait in waits)

    def run(self, chance):
        """Runs all workers, in an order by chance, and returns the status."""
        if self.options["fail-door"] == 1:
            return self.end("9 door")
        workers = [(self.worker(first), lambda: True) for first in range(1, self.options["workers"] + 1)]
        while workers:
            ready = [index for index, (_, wait) in enumerate(workers) if wait()]
            if not ready:
                raise ValueError("a job waits in vain")
            index = chance.choice(ready)
            try:
                workers[index] = (workers[index][0], next(workers[index][0]))
            except StopIteration:
                workers.pop(index)
        if "door" in self.ends:
            return self.end("9 door")
        count = len(self.history.lines)
        lines = "".join(self.history.lines)
        if "limit" in self.ends:
            return self.end(f"8 limit {count}", lines)
        return self.end("0 done", lines + self.history.summary(self.jobs))

    def end(self, status, text=""):
        """What was printed, unless that fails."""
        fails = text and self.options["fail-write"] == 1
        self.status = "6 write" if fails else status
        self.text = "" if fails else text
        return self

    # How it is printed

    def replies(self):
        return [self.ended[number] for number in sorted(self.ended)]

    def codes(self):
        return "".join(" |" + "".join(f" {part[:3]}" for part in text.split("HTTP/1.1 ")[1:]) for text in self.replies())

    def whole(self):
        return f"{self.status}\n" + "".join(f">{spelled(text)}\n" for text in self.replies()) + self.text

    def in_codes(self):
        mixed, lines = self.options["mixed"], self.text.splitlines()
        first = sorted((without(line.partition(" ")[2], "at=") for line in lines[:mixed]), key=str.encode)
        rest = [without(line, "seen=") if mixed else line for line in lines[mixed:]]
        return f"{self.status}{self.codes()}\n" + "".join(f"{line}\n" for line in first + rest)

    def in_counts(self):
        each = [text.split("HTTP/1.1 ")[1:] for text in self.replies()]
        counts = f"{self.status}, replies {sum(map(len, each))}, lines {self.text.count(chr(10))}\n"
        last = self.options["last"]
        shown = ["".join(f"HTTP/1.1 {part}" for part in parts[-last:]) for parts in each] if last else []
        return counts + "".join(f">{spelled(text)}\n" for text in shown)

    def in_short(self):
        return f"{self.status}{self.codes()}" + "".join(f"; {line}" for line in self.text.splitlines())


def spelled(text):
    """A text with CR and LF spelled."""
    return text.replace("\r", "\\r").replace("\n", "\\n")


def without(line, mark):
    """A line without the words that begin with a mark."""
    return " ".join(word for word in line.split(" ") if not word.startswith(mark))


def printed(sent, options, how):
    """What a case prints, in whatever order its workers step."""
    orders = ORDERS if options["workers"] > 1 else 1
    found = {how(Run(sent, options).run(random.Random(order))) for order in range(orders)}
    if len(found) > 1:
        raise ValueError(f"it isn't determined: {found}")
    return found.pop()


def failing(sent, options, name):
    """What is printed while the call of each number in turn fails."""
    whole = printed(sent, options, Run.in_short)
    text = before = ""
    for number in range(1, 10_000):
        said = printed(sent, {**options, name: number}, Run.in_short)
        if said != before:
            text += f"{number}: {said}\n"
        if said == whole:
            return text
        before = said
    return text


def case(line, talks):
    verb, names, *words = line.split(" ")
    sent = [talks[name] for name in names.split(",")] if names != "-" else []
    options = dict(PLAIN)
    for word in words:
        name, number = word.split("=")
        if name not in options:
            raise ValueError(word)
        options[name] = int(number)
    if verb in ("calls", "doors"):
        return failing(sent, options, {"calls": "fail-call", "doors": "fail-door"}[verb])
    return printed(sent, options, {"serve": Run.whole, "codes": Run.in_codes, "counts": Run.in_counts}[verb])


def request(method, path, body):
    """A request with the length of its body."""
    content = body.encode()
    return f"{method} {path} HTTP/1.1\r\nContent-Length: {len(content)}\r\n\r\n".encode() + content


def slice_of(number, count):
    """The JSON of a slice with so many devices, on the node n1 and in a pool of its own."""
    devices = ",".join(f'{{"name":"d{index}"}}' for index in range(count))
    head = f'{{"apiVersion":"resource.k8s.io/v1","kind":"ResourceSlice","metadata":{{"name":"s{number}"}},"spec":{{'
    pool = f'"pool":{{"name":"s{number}","generation":1,"resourceSliceCount":1}}'
    return f'{head}"driver":"gpu.example.com","nodeName":"n1",{pool},"devices":[{devices}]}}}}'


def main():
    talks = {}
    last = None
    for line in sys.stdin.read().splitlines():
        verb, _, rest = line.partition(" ")
        if not line or line.startswith("#"):
            continue
        if verb == "talk":
            last = rest
            talks[last] = b""
        elif verb == "ask":
            method, path, *body = rest.split(" ", 2)
            talks[last] += request(method, path, "".join(body))
        elif verb == "slices":
            lowest, highest, count = map(int, rest.split(" "))
            for number in range(lowest, highest + 1):
                talks[last] += request("POST", "/apis/resource.k8s.io/v1/resourceslices", slice_of(number, count))
        elif verb in ("lines", "text"):
            count, _, part = rest.partition(" ")
            talks[last] += (part + ("\r\n" if verb == "lines" else "")).encode() * int(count)
        else:
            print(f"== {line}\n{case(line, talks)}", end="")


if __name__ == "__main__":
    main()
