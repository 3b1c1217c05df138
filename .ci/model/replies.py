"""What a server replies to a request, and what it does for it: the paths, objects as they are printed, and failures, as
docs/FORMATS.md has them."""

import json
import re

from documents import NoCommand, object_command, read_json, read_or_invalid
from fields import Place, read_status
from jobs import Delete, Release, Schedule, WriteStatus
from objects import NAMESPACED
from state import WRITTEN, key_for
from values import Key

PHRASES = {
    200: "OK",
    201: "Created",
    400: "Bad Request",
    404: "Not Found",
    405: "Method Not Allowed",
    409: "Conflict",
    411: "Length Required",
    413: "Payload Too Large",
    422: "Unprocessable Entity",
}
FAILURES = {
    "BadRequest": 400,
    "NotFound": 404,
    "MethodNotAllowed": 405,
    "LengthRequired": 411,
    "RequestEntityTooLarge": 413,
}
REFUSALS = {
    "NotFound": (404, "NotFound"),
    "Exists": (409, "AlreadyExists"),
    "Conflict": (409, "Conflict"),
    "InUse": (409, "Conflict"),
    "Busy": (409, "Conflict"),
    "Bound": (409, "Conflict"),
    "NotBound": (409, "Conflict"),
    "Invalid": (422, "Invalid"),
    "Immutable": (422, "Invalid"),
    "Devices": (422, "Invalid"),
    "Failure": (422, "Invalid"),
}
UNREAD = {"BadHead": "BadRequest", "NoLength": "LengthRequired", "TooLong": "RequestEntityTooLarge"}
PLURALS = {
    "resourceslices": "ResourceSlice",
    "deviceclasses": "DeviceClass",
    "resourceclaims": "ResourceClaim",
    "nodes": "Node",
    "pods": "Pod",
}
RESOURCES = "/apis/resource.k8s.io/v1"
PATHS = [
    (RESOURCES + "/(resourceslices|deviceclasses)", "list", "GET POST"),
    ("/api/v1/(nodes)", "list", "GET POST"),
    (RESOURCES + "/namespaces/([^/]+)/(resourceclaims)", "list", "GET POST"),
    ("/api/v1/namespaces/([^/]+)/(pods)", "list", "GET POST"),
    (RESOURCES + "/(resourceslices|deviceclasses)/([^/]+)", "object", "GET PUT DELETE"),
    ("/api/v1/(nodes)/([^/]+)", "object", "GET PUT DELETE"),
    (RESOURCES + "/namespaces/([^/]+)/(resourceclaims)/([^/]+)", "object", "GET PUT DELETE"),
    ("/api/v1/namespaces/([^/]+)/(pods)/([^/]+)", "object", "GET PUT DELETE"),
    (RESOURCES + "/namespaces/([^/]+)/(resourceclaims)/([^/]+)/status", "status", "GET PUT"),
    ("/apis/dra.replay/v1/namespaces/([^/]+)/(pods)/([^/]+)/schedule", "schedule", "POST"),
    ("/apis/dra.replay/v1/namespaces/([^/]+)/(pods)/([^/]+)/release", "release", "POST"),
    ("/apis/dra.replay/v1/history", "history", "GET"),
]


class Failed(Exception):
    """A request that isn't served, with the reason."""


def compact(value):
    return json.dumps(value, separators=(",", ":"), sort_keys=True, ensure_ascii=False)


def reply(code, text, kind="application/json"):
    length = len(text.encode())
    return f"HTTP/1.1 {code} {PHRASES[code]}\r\nContent-Type: {kind}\r\nContent-Length: {length}\r\n\r\n{text}"


def status(code, reason, message):
    """The reply to a request that failed."""
    body = {"apiVersion": "v1", "code": code, "kind": "Status", "message": message, "metadata": {}, "reason": reason}
    return reply(code, compact({**body, "status": "Failure"}))


def failure(reason):
    """The reply to a request that isn't served, or couldn't be read."""
    return status(FAILURES[reason], reason, reason)


def refusal(text):
    """The reply to a command that was denied so."""
    return status(*REFUSALS[text.split(" ")[0]], text)


SUCCESS = reply(200, compact({"apiVersion": "v1", "kind": "Status", "metadata": {}, "status": "Success"}))


# Objects as they are printed. Their documents stand in the cases as they are printed, but for `metadata` and the order of
# members


def uid_text(number):
    return f"00000000-0000-4000-8000-{number:012x}"


def status_of_claim(state, stored):
    """The status of a claim whose grant is published: no user has only assumed it."""
    users = [pod for pod, use in stored.users.items() if use == WRITTEN]
    results = []
    for one in stored.grant.results:
        driver, pool, device = str(one.device).split("/")
        results.append({"device": device, "driver": driver, "pool": pool, "request": one.name})
    fields = [{"key": "metadata.name", "operator": "In", "values": [stored.grant.node]}]
    place = {"nodeSelectorTerms": [{"matchFields": fields}]}
    found = {"allocation": {"devices": {"results": results}, "nodeSelector": place}}
    if users:
        pods = sorted(users, key=lambda pod: (pod.namespace.encode(), pod.name.encode()))
        found["reservedFor"] = [
            {"name": pod.name, "resource": "pods", "uid": uid_text(state.pods[pod].uid)} for pod in pods
        ]
    return found


class Server:
    """The objects over a history, with the documents that they are of."""

    def __init__(self, history):
        self.history = history
        self.documents = {}

    def printed(self, kind, key):
        state = self.history.state
        stored = state.tables[kind][key]
        document = self.documents[kind, key]
        metadata = {"name": key.name, "resourceVersion": str(stored.version), "uid": uid_text(stored.uid)}
        if document["metadata"].get("labels"):
            metadata["labels"] = document["metadata"]["labels"]
        if kind in NAMESPACED:
            metadata["namespace"] = key.namespace
        found = {"apiVersion": document["apiVersion"], "kind": kind, "metadata": metadata}
        if kind != "Node":
            found["spec"] = document["spec"]
        if kind == "ResourceClaim" and stored.grant and (not stored.users or WRITTEN in stored.users.values()):
            found["status"] = status_of_claim(state, stored)
        return found

    def listed(self, kind, namespace):
        """The list of the objects of a kind, in a namespace if it is one of those."""
        keys = [key for key in self.history.state.tables[kind] if kind not in NAMESPACED or key.namespace == namespace]
        keys.sort(key=lambda key: (key.namespace.encode(), key.name.encode()))
        items = [self.printed(kind, key) for key in keys]
        version = "v1" if kind in ("Node", "Pod") else "resource.k8s.io/v1"
        metadata = {"resourceVersion": str(len(self.history.lines))}
        return {"apiVersion": version, "items": items, "kind": kind + "List", "metadata": metadata}

    def one(self, kind, key):
        """The reply to a GET of an object."""
        if key not in self.history.state.tables[kind]:
            return refusal(f"NotFound {kind} {key}")
        return reply(200, compact(self.printed(kind, key)))


# Requests


def body_of(request, kind, namespace, name):
    """The document in a body, which is of the path's kind, namespace and name."""
    try:
        document = read_json(request.body)
    except NoCommand:
        raise Failed("BadRequest") from None
    version = "v1" if kind in ("Node", "Pod") else "resource.k8s.io/v1"
    if not isinstance(document, dict) or (document.get("apiVersion"), document.get("kind")) != (version, kind):
        raise Failed("BadRequest")
    metadata = document.get("metadata")
    if not isinstance(metadata, dict):
        metadata = {}
    if kind in NAMESPACED:
        if metadata.get("namespace") not in (None, namespace):
            raise Failed("BadRequest")
        document = {**document, "metadata": {**metadata, "namespace": namespace}}
    if name is not None and metadata.get("name") != name:
        raise Failed("BadRequest")
    return document


def asked(request):
    """What a request asks for: the row of its path, its kind, namespace and name."""
    path = request.target.partition("?")[0]
    for pattern, row, methods in PATHS:
        found = re.fullmatch(pattern, path)
        if found:
            if request.method not in methods.split(" "):
                raise Failed("MethodNotAllowed")
            words = list(found.groups())
            namespace = words.pop(0) if words and words[0] not in PLURALS else None
            kind = PLURALS[words.pop(0)] if words else None
            return row, kind, namespace, words[0] if words else None
    raise Failed("NotFound")


def command_of(request):
    """The command that a request is, with the document of its body and the code of its reply; None if it is none."""
    row, kind, namespace, name = asked(request)
    if row == "schedule":
        return Schedule(Key(namespace, name)), None, 200
    if row == "release":
        return Release(Key(namespace, name)), None, 200
    if request.method == "GET":
        return None
    if request.method == "DELETE":
        return Delete(kind, key_for(kind, namespace, name)), None, 200
    document = body_of(request, kind, namespace, name)
    if row == "status":
        return read_or_invalid(lambda: WriteStatus(read_status(Place(document, "")))), None, 200
    if request.method == "POST":
        return object_command(without_version(document), "create"), document, 201
    return object_command(document, "update"), document, 200


def without_version(document):
    """A POST doesn't look at a version."""
    metadata = document.get("metadata")
    if not isinstance(metadata, dict):
        return document
    return {**document, "metadata": {name: value for name, value in metadata.items() if name != "resourceVersion"}}


def look(server, request):
    """The reply to a GET."""
    row, kind, namespace, name = asked(request)
    if row == "history":
        return reply(200, "".join(server.history.lines), "text/plain")
    if row == "list":
        return reply(200, compact(server.listed(kind, namespace)))
    return server.one(kind, key_for(kind, namespace, name))


def reply_to_job(server, request, document, code, line):
    """The reply to a command, whose job's last line is this."""
    line = line.removesuffix("\n")
    _, _, word, rest = line.split(" ", 3)
    if word == "denied":
        return refusal(rest)
    row, kind, namespace, name = asked(request)
    if row in ("schedule", "release"):
        return reply(200, compact({"apiVersion": "dra.replay/v1", "end": line, "kind": "Outcome"}))
    if request.method == "DELETE":
        return SUCCESS
    key = key_for(kind, namespace, name or document["metadata"]["name"])
    if document:
        server.documents[kind, key] = document
    return reply(code, compact(server.printed(kind, key)))
