"""Requests of HTTP, as docs/FORMATS.md has them: how bytes are cut into requests, and what is refused."""

import re
from dataclasses import dataclass

MOST_HEAD = 16_384
MOST_LINES = 64
MOST_BODY = 2_097_152
MOST_REQUESTS = 65_535
TOKEN = rb"[!#$%&'*+.^_`|~0-9A-Za-z-]+"
FIRST_LINE = re.compile(TOKEN + rb" [^ \x00-\x20\x7f]+ HTTP/1\.[01]")
HEADER = re.compile(rb"(" + TOKEN + rb"):([^\x00-\x08\x0a-\x1f\x7f]*)")


class Refused(Exception):
    """A request that can't be read: BadHead, NoLength, TooLong or EndedEarly."""


class NotYet(Exception):
    """More bytes are needed to say what a request is."""


@dataclass
class Request:
    method: str
    target: str
    body: bytes
    last: bool


def lines_of_head(content):
    """The lines of the head that bytes begin with, and where it ends."""
    lines = []
    at = 0
    while True:
        end = content.find(b"\n", at)
        if max(end + 1, len(content) if end < 0 else 0) > MOST_HEAD:
            raise Refused("TooLong")
        if end < 0:
            raise NotYet
        line = content[at:end].removesuffix(b"\r")
        at = end + 1
        if line:
            lines.append(line)
        elif lines:
            return lines, at
        if len(lines) > MOST_LINES + 1:
            raise Refused("TooLong")


def headers_of(lines):
    if not FIRST_LINE.fullmatch(lines[0]):
        raise Refused("BadHead")
    found = [HEADER.fullmatch(line) for line in lines[1:]]
    if not all(found):
        raise Refused("BadHead")
    return [(one[1].lower(), one[2].strip(b" \t")) for one in found]


def length_of(method, headers):
    lengths = {value for name, value in headers if name == b"content-length"}
    if len(lengths) > 1 or not all(re.fullmatch(rb"[0-9]+", value) for value in lengths):
        raise Refused("BadHead")
    if any(name == b"transfer-encoding" for name, _ in headers) or (method in (b"POST", b"PUT") and not lengths):
        raise Refused("NoLength")
    length = int(lengths.pop()) if lengths else 0
    if length > MOST_BODY:
        raise Refused("TooLong")
    return length


def next_request(content):
    """The request that bytes begin with, and how many of them it takes."""
    lines, at = lines_of_head(content)
    method, target, version = lines[0].split(b" ") if FIRST_LINE.fullmatch(lines[0]) else (b"", b"", b"")
    headers = headers_of(lines)
    length = length_of(method, headers)
    if len(content) < at + length:
        raise NotYet
    options = [one.strip(b" \t").lower() for name, value in headers if name == b"connection" for one in value.split(b",")]
    last = version == b"HTTP/1.0" or b"close" in options
    return Request(method.decode(), target.decode(), content[at : at + length], last), at + length


def is_blank(content):
    """Whether bytes are empty lines alone."""
    return not content.replace(b"\r\n", b"\n").strip(b"\n")
