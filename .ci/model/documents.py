"""Documents of a script, and the commands that they ask for."""

import json
from dataclasses import dataclass

import fields
from jobs import Apply, Delete, Invalid, Release, Schedule
from state import key_for
from values import Key

OBJECTS = {
    ("resource.k8s.io/v1", "ResourceSlice"),
    ("resource.k8s.io/v1", "DeviceClass"),
    ("resource.k8s.io/v1", "ResourceClaim"),
    ("v1", "Node"),
    ("v1", "Pod"),
}
MOST_LEVELS = 127
MOST_TOGETHER = 256


class NoCommand(Exception):
    """A document that isn't JSON or isn't a command."""


class OtherCommand(Exception):
    """A command that isn't one that runs by itself."""


# What a document may ask for beside commands


@dataclass
class Together:
    """Commands that run at once."""

    commands: list


@dataclass
class Prepare:
    pod: Key


@dataclass
class Unprepare:
    pod: Key


@dataclass
class Reopen:
    pass


# JSON: the last of several members of one name counts; a number is a whole number of 64 bits if it is written as one
# and fits, else a float; and -0 is a float


def read_whole(digits):
    value = int(digits)
    return value if digits != "-0" and -(2**63) <= value < 2**64 else read_float(digits)


def read_float(text):
    value = float(text)
    if value in (float("inf"), float("-inf")):
        raise NoCommand
    return value


def no_constant(_):
    raise NoCommand


DECODER = json.JSONDecoder(parse_int=read_whole, parse_float=read_float, parse_constant=no_constant)


def levels(value):
    """How many levels deep a value is nested."""
    if isinstance(value, dict):
        value = list(value.values())
    return 1 + max(map(levels, value), default=0) if isinstance(value, list) else 0


def has_surrogates(value):
    """Whether a text has a character that is no Unicode scalar value, which JSON can escape."""
    if isinstance(value, dict):
        return any(has_surrogates(one) for pair in value.items() for one in pair)
    if isinstance(value, list):
        return any(map(has_surrogates, value))
    return isinstance(value, str) and any("\ud800" <= character <= "\udfff" for character in value)


def read_json(document):
    """The JSON value of the bytes of a document."""
    try:
        value = DECODER.decode(document.decode())
        if levels(value) > MOST_LEVELS or has_surrogates(value):
            raise NoCommand
    except (ValueError, RecursionError):
        raise NoCommand from None
    return value


# Commands


def name_of(document, member, missing=None):
    value = document.get(member)
    if value is None and missing is not None:
        return missing
    if not isinstance(value, str):
        raise NoCommand
    return value


def key_of(document):
    return Key(name_of(document, "namespace", "default"), name_of(document, "name"))


def form_of(document):
    """The apiVersion and the kind."""
    if not isinstance(document, dict):
        raise NoCommand
    form = document.get("apiVersion"), document.get("kind")
    if not all(isinstance(one, str) for one in form):
        raise NoCommand
    return form


def read_or_invalid(read):
    try:
        return read()
    except fields.FieldError as error:
        return Invalid(error)


def object_command(document, mode="apply"):
    kind = form_of(document)[1]
    return read_or_invalid(lambda: Apply(fields.read_object(kind, document), mode))


def single_command(document):
    """The command of a document that is no list of commands."""
    form = form_of(document)
    if form in OBJECTS:
        return object_command(document)
    if form == ("dra.replay/v1", "Schedule"):
        return Schedule(key_of(document))
    if form == ("dra.replay/v1", "Release"):
        return Release(key_of(document))
    if form == ("dra.replay/v1", "Delete"):
        target = name_of(document, "target")
        if target not in fields.READERS:
            raise NoCommand
        return Delete(target, key_for(target, *key_of(document)))
    raise NoCommand


def items_of(document, member):
    items = document.get(member)
    if not isinstance(items, list):
        raise NoCommand
    return items


def asked_by(document):
    """What a JSON value asks for: one thing, or one for each item of a List. With a member that isn't allowed in it a
    List or a Together is no command."""
    form = form_of(document)
    if form == ("v1", "List"):
        items = items_of(document, "items")
        if any(form_of(item) not in OBJECTS for item in items):
            raise NoCommand
        return [object_command(item) for item in items]
    if form == ("dra.replay/v1", "Together"):
        commands = [single_command(item) for item in items_of(document, "commands")]
        if not 1 <= len(commands) <= MOST_TOGETHER:
            raise NoCommand
        return [Together(commands)]
    if form == ("dra.replay/v1", "Prepare"):
        return [Prepare(key_of(document))]
    if form == ("dra.replay/v1", "Unprepare"):
        return [Unprepare(key_of(document))]
    if form == ("dra.replay/v1", "Reopen"):
        return [Reopen()]
    return [single_command(document)]


def commands_of(document):
    """The commands of a JSON value, each of which runs by itself."""
    asked = asked_by(document)
    if any(isinstance(one, (Together, Prepare, Unprepare, Reopen)) for one in asked):
        raise OtherCommand
    return asked
