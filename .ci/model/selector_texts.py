"""The selectors of the cases. This is no reader of the selector language, of which `value_cases` has cases of its
own: here is each form of text with what it evaluates to, worked out by hand. A case with another text is left out."""

import re

from values import quantity


class UnknownText(Exception):
    """A selector of a form that isn't here."""


class SelectorError(Exception):
    """The word of an evaluation's error."""


# Why a text is no selector: it is no expression or more than 64 levels deep, it has no type or another than bool, or its
# estimate is too large.
TENFOLD = "[0,1,2,3,4,5,6,7,8,9].all(x, "
REFUSED = {
    "1 +": "Parse",
    ")": "Parse",
    '1 + "a" == 2': "Check",
    "1": "Check",
    "device.name == 'a'": "Check",
    TENFOLD * 6 + "true" + ")" * 6: "Cost",
    "+".join("1" * 64) + " == 64": "Parse",
    "+".join("1" * 71) + " == 71": "Parse",
}

# What texts evaluate to that don't depend on the device: a truth value, or the word of an error.
CONSTANTS = {
    "true": True,
    "false": False,
    "+".join("1" * 63) + " == 63": True,
    "1 / 0 == 1": "DivByZero",
    "9223372036854775807 + 1 == 0": "Overflow",
    "[1, 2][2] == 1": "OutOfRange",
    "{1: 2}[3] == 1": "NoKey",
    'quantity("x") == quantity("1")': "BadConversion",
}


# Forms that depend on the device: each function has the form as its text, in which D is a domain, I an identifier, T a
# text in quotes and N a number. It is given what is in the place of these.


def attribute(device, domain, identifier):
    """The type and the value of an attribute."""
    if (domain, identifier) not in device.attributes:
        raise SelectorError("NoKey")
    return device.attributes[domain, identifier]


def is_text(device, domain, identifier, text):
    """device.attributes[D].I == T"""
    return attribute(device, domain, identifier) == ("string", text)


def is_number(device, domain, identifier, number):
    """device.attributes[D].I == N"""
    return attribute(device, domain, identifier) == ("int", int(number))


def is_true(device, domain, identifier):
    """device.attributes[D].I"""
    kind, value = attribute(device, domain, identifier)
    if kind != "bool":
        raise SelectorError("NotBool")
    return value


def has(device, domain, identifier):
    """has(device.attributes[D].I)"""
    return (domain, identifier) in device.attributes


def is_in(device, identifier, domain):
    """T in device.attributes[D]"""
    return (domain, identifier) in device.attributes


def is_half_of_six(device, domain, identifier):
    """6 / device.attributes[D].I == 3"""
    kind, value = attribute(device, domain, identifier)
    if kind != "int":
        raise SelectorError("NoOverload")
    if value == 0:
        raise SelectorError("DivByZero")
    # Of all whole numbers 2 alone, since division truncates towards zero.
    return value == 2


def is_sum(device, domain, identifier, other_domain, other_identifier, text):
    """device.attributes[D].I + device.attributes[D].I == T"""
    left, right = attribute(device, domain, identifier), attribute(device, other_domain, other_identifier)
    if left[0] != right[0] or left[0] not in ("int", "string"):
        raise SelectorError("NoOverload")
    return left[0] == "string" and left[1] + right[1] == text


def is_driver(device, text):
    """device.driver == T"""
    return device.driver == text


def has_capacity(device, domain, identifier, amount):
    """device.capacity[D].I.compareTo(quantity(T)) >= 0"""
    if (domain, identifier) not in device.capacity:
        raise SelectorError("NoKey")
    return device.capacity[domain, identifier] >= quantity(amount)


def numbers(device, domain, identifier, text):
    """The numbers of a version and of another, neither of which has anything behind its numbers."""
    kind, value = attribute(device, domain, identifier)
    if kind != "version":
        raise SelectorError("NoOverload")
    if not all(re.fullmatch(r"\d+\.\d+\.\d+", one) for one in (value, text)):
        raise UnknownText(value)
    return [[int(number) for number in one.split(".")] for one in (value, text)]


def is_before(device, domain, identifier, text):
    """device.attributes[D].I.compareTo(semver(T)) < 0"""
    version, other = numbers(device, domain, identifier, text)
    return version < other


def is_not_before(device, domain, identifier, text):
    """device.attributes[D].I.compareTo(semver(T)) >= 0"""
    version, other = numbers(device, domain, identifier, text)
    return version >= other


def pattern_of(form):
    """The regular expression of a form."""
    quoted = r"""(?:"([^"\\]*)"|'([^'\\]*)')"""
    parts = {"D": quoted, "T": quoted, "I": r"(\w+)", "N": r"(-?\d+)"}
    return re.compile(re.sub(r"\b[DTIN]\b", lambda part: parts[part[0]], re.escape(form)))


FORMS = [
    (pattern_of(form.__doc__), form)
    for form in (
        is_text,
        is_number,
        is_true,
        has,
        is_in,
        is_half_of_six,
        is_sum,
        is_driver,
        has_capacity,
        is_before,
        is_not_before,
    )
]


def meaning(text):
    """What a text without `&&` evaluates to, as a function of the device."""
    if text in CONSTANTS:
        return lambda device: CONSTANTS[text]
    for pattern, form in FORMS:
        match = pattern.fullmatch(text)
        if match:
            found = [one for one in match.groups() if one is not None]
            return lambda device: form(device, *found)
    raise UnknownText(text)


def meanings(text):
    """The sides of `&&`."""
    return [meaning(side) for side in text.strip(" ").split(" && ")]


def refused(text):
    """Parse, Check or Cost if the text doesn't compile; None if it does."""
    if text in REFUSED:
        return REFUSED[text]
    meanings(text)
    return None


def evaluate(text, device):
    """Whether a selector is true of a device, or its error. With `&&` it is false if a side is false; else it is the
    error of the first side that has one."""
    values = [value_of(side, device) for side in meanings(text)]
    if False in values:
        return False
    for value in values:
        if value is not True:
            raise SelectorError(value)
    return True


def value_of(side, device):
    """True, false, or the word of an error."""
    try:
        return side(device)
    except SelectorError as error:
        return str(error)
