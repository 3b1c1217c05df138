"""Names and quantities, as docs/FORMATS.md has them."""

import re
from typing import NamedTuple


class Key(NamedTuple):
    """The namespace and the name of an object. A kind without namespaces has the empty text there."""

    namespace: str
    name: str

    def __str__(self):
        return f"{self.namespace}/{self.name}" if self.namespace else self.name


def key_of_text(text):
    """The key that prints as this text."""
    namespace, slash, name = text.partition("/")
    return Key(namespace, name) if slash else Key("", text)


def in_byte_order(names):
    return sorted(names, key=lambda name: name.encode())


# Names

PART = r"[a-z0-9]([a-z0-9-]*[a-z0-9])?"


def is_dns_label(text):
    return len(text) <= 63 and re.fullmatch(PART, text) is not None


def is_dns_subdomain(text, most):
    return len(text) <= most and re.fullmatch(rf"{PART}(\.{PART})*", text) is not None


def is_pool_name(text):
    return len(text) <= 253 and all(is_dns_subdomain(part, 253) for part in text.split("/"))


def is_identifier(text):
    return re.fullmatch(r"[A-Za-z_][A-Za-z0-9_]*", text) is not None


def full_name(name, driver):
    """The domain and the id of a qualified name. Without a domain the driver is the domain."""
    domain, slash, identifier = name.partition("/")
    return (domain, identifier) if slash else (driver, name)


def is_version(text):
    """Semantic Versioning 2.0.0, whose three numbers have 64 bits."""
    number = r"(0|[1-9][0-9]*)"
    before = r"(0|[1-9][0-9]*|[0-9]*[A-Za-z-][0-9A-Za-z-]*)"
    match = re.fullmatch(
        rf"{number}\.{number}\.{number}(-{before}(\.{before})*)?(\+[0-9A-Za-z-]+(\.[0-9A-Za-z-]+)*)?", text
    )
    return match is not None and all(int(match[i]) < 2**64 for i in (1, 2, 3))


# Quantities, counted in 10^-9

BILLION = 10**9
FACTORS = {
    **{name: (2, 10 * (i + 1)) for i, name in enumerate(("Ki", "Mi", "Gi", "Ti", "Pi", "Ei"))},
    **{name: (10, 3 * (i - 3)) for i, name in enumerate(("n", "u", "m", "", "k", "M", "G", "T", "P", "E"))},
}


class QuantityError(Exception):
    """BadText, OutOfRange or TooPrecise."""


def quantity(text):
    """The value of a quantity, as a whole number of 10^-9."""
    match = re.fullmatch(
        r"([+-]?)([0-9]+(?:\.[0-9]*)?|\.[0-9]+)(?:([KMGTPE]i|[numkMGTPE]?)|[eE]([+-]?[0-9]+))", text
    )
    if match is None or len(text) > 64:
        raise QuantityError("BadText")
    sign, number, suffix, exponent = match.groups()
    base, power = FACTORS[suffix] if exponent is None else (10, int(exponent))
    if not -9 <= power <= 18 and exponent is not None:
        raise QuantityError("OutOfRange")
    whole, _, fraction = number.partition(".")
    count = int(whole + fraction) * BILLION * base ** max(power, 0)
    count, rest = divmod(count, 10 ** len(fraction) * base ** max(-power, 0))
    if rest:
        raise QuantityError("TooPrecise")
    if count > (2**63 - 1) * BILLION:
        raise QuantityError("OutOfRange")
    return -count if sign == "-" else count


def printed_quantity(count):
    """The sign, the whole part, and the digits of the fraction if there is one."""
    whole, fraction = divmod(abs(count), BILLION)
    text = str(whole)
    if fraction:
        text += "." + f"{fraction:09d}".rstrip("0")
    return "-" + text if count < 0 else text
