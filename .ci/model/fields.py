"""Objects of the API, read from JSON: a field is read, or the object's first error is raised, by the tables of
docs/FORMATS.md. Rows of a table are read in their order, each over all items of a list before the next row of any;
members of a map are read in the order of the bytes of their keys."""

import re

import selector_texts
from objects import (
    NAMESPACED,
    ClaimObject,
    ClassObject,
    Constraint,
    Device,
    Metadata,
    NodeChoice,
    NodeObject,
    PodObject,
    Request,
    Requirement,
    Result,
    SliceObject,
    Status,
    Taint,
    Toleration,
    Way,
)
from values import (
    Key,
    QuantityError,
    full_name,
    in_byte_order,
    is_dns_label,
    is_dns_subdomain,
    is_identifier,
    is_pool_name,
    is_version,
    quantity,
)


class FieldError(Exception):
    """The word of an error and the path of the field."""

    def __init__(self, word, path):
        super().__init__(f"{word} {path}")
        self.word = word
        self.path = path


class Place:
    """A JSON object in a document, with its path. Its readers return a member, or raise the first error that it has:
    Missing, WrongType, TooLong, TooMany, an error of its form, OutOfRange."""

    def __init__(self, members, path):
        if not isinstance(members, dict):
            raise FieldError("WrongType", path)
        self.members = members
        self.path = path

    def at(self, name):
        return f"{self.path}.{name}" if self.path else name

    def fail(self, word, name):
        raise FieldError(word, self.at(name))

    def get(self, name):
        return self.members.get(name)

    def needed(self, name):
        value = self.get(name)
        if value is None:
            self.fail("Missing", name)
        return value

    def object(self, name):
        return Place(self.needed(name), self.at(name))

    def optional_object(self, name):
        return Place({} if self.get(name) is None else self.get(name), self.at(name))

    def text(self, name):
        value = self.needed(name)
        if not isinstance(value, str):
            self.fail("WrongType", name)
        return value

    def optional_text(self, name):
        return None if self.get(name) is None else self.text(name)

    def name(self, name, most, form):
        """A text of at most that many bytes and of a form."""
        value = self.text(name)
        check_name(value, most, form, self.at(name))
        return value

    def truth(self, name):
        value = self.get(name)
        if value is not None and not isinstance(value, bool):
            self.fail("WrongType", name)
        return bool(value)

    def whole(self, name, least, most):
        value = self.needed(name)
        if not is_whole(value):
            self.fail("WrongType", name)
        if not least <= value <= most:
            self.fail("OutOfRange", name)
        return value

    def quantity(self, name, negative):
        value = self.needed(name)
        if not isinstance(value, str) and not is_whole(value):
            self.fail("WrongType", name)
        try:
            count = quantity(str(value))
        except QuantityError as error:
            self.fail("OutOfRange" if str(error) == "OutOfRange" else "BadQuantity", name)
        if count < 0 and not negative:
            self.fail("OutOfRange", name)
        return count

    def list(self, name, most, least=0):
        """The items of a list, each with its path. A list that may be empty may be missing."""
        value = self.get(name)
        if value is None or value == []:
            if least:
                self.fail("Missing", name)
            return []
        if not isinstance(value, list):
            self.fail("WrongType", name)
        if most is not None and len(value) > most:
            self.fail("TooMany", name)
        return [(item, f"{self.at(name)}[{i}]") for i, item in enumerate(value)]

    def places(self, name, most, least=0):
        """The items of a list of objects."""
        return [Place(there(item, path), path) for item, path in self.list(name, most, least)]

    def table(self, name):
        """The members of a map in the order of the bytes of their keys, each with its path."""
        value = self.get(name)
        if value is None:
            return []
        if not isinstance(value, dict):
            self.fail("WrongType", name)
        return [(key, value[key], f"{self.at(name)}[{key}]") for key in in_byte_order(value)]

    def left_out(self, *names):
        """Members that aren't supported unless they ask for nothing."""
        for name in names:
            if not is_unset(self.get(name)):
                self.fail("NotSupported", name)


def is_unset(value):
    return value is None or value is False or value == "" or value == [] or value == {}


def is_whole(value):
    return isinstance(value, int) and not isinstance(value, bool)


def there(value, path):
    if value is None:
        raise FieldError("Missing", path)
    return value


def text_item(value, path):
    if not isinstance(there(value, path), str):
        raise FieldError("WrongType", path)
    return value


def check_name(text, most, form, path):
    if len(text.encode()) > most:
        raise FieldError("TooLong", path)
    if not form(text):
        raise FieldError("BadName", path)


def subdomain(most):
    return lambda text: is_dns_subdomain(text, most)


def check_qualified(name, driver, path):
    """The full name of an attribute or a capacity."""
    domain, identifier = full_name(name, driver)
    if len(domain.encode()) > 63 or len(identifier.encode()) > 32:
        raise FieldError("TooLong", path)
    if not is_dns_subdomain(domain, 63) or not is_identifier(identifier):
        raise FieldError("BadName", path)
    return domain, identifier


def check_new(name, names, path):
    if name in names:
        raise FieldError("Doubled", path)


def read_metadata(top, kind):
    place = top.object("metadata")
    name = place.name("name", 253, subdomain(253))
    namespace = ""
    if kind in NAMESPACED:
        namespace = "default"
        if place.get("namespace") is not None:
            namespace = place.name("namespace", 63, is_dns_label)
    labels = {key: text_item(value, path) for key, value, path in place.table("labels")}
    version = None
    if place.optional_text("resourceVersion"):
        digits = place.text("resourceVersion")
        if not re.fullmatch(r"0|[1-9][0-9]*", digits) or int(digits) >= 2**64:
            place.fail("WrongType", "resourceVersion")
        version = int(digits)
    return Metadata(Key(namespace, name), labels, version)


def read_node(top):
    return NodeObject(read_metadata(top, "Node"))


# Nodes that see a slice or a device

# The least and the greatest number of values of each operator
COUNTS_OF_VALUES = {
    "In": (1, None),
    "NotIn": (1, None),
    "Exists": (0, 0),
    "DoesNotExist": (0, 0),
    "Gt": (1, 1),
    "Lt": (1, 1),
}


def whole_of_label(text):
    """The whole number of 64 bits that a label, or a value of Gt and Lt, is; None if it isn't one."""
    if not re.fullmatch(r"[+-]?[0-9]+", text, re.ASCII) or not -(2**63) <= int(text) < 2**63:
        return None
    return int(text)


def read_requirement(place, of_fields):
    key = place.text("key")
    if of_fields and key != "metadata.name":
        place.fail("NotSupported", "key")
    operator = place.text("operator")
    if operator not in (("In", "NotIn") if of_fields else COUNTS_OF_VALUES):
        place.fail("NotSupported", "operator")
    items = place.list("values", None)
    least, most = COUNTS_OF_VALUES[operator]
    if len(items) < least or most is not None and len(items) > most:
        place.fail("NotOne", "values")
    values = [text_item(value, path) for value, path in items]
    if operator in ("Gt", "Lt") and whole_of_label(values[0]) is None:
        place.fail("WrongType", "values")
    return Requirement(key, operator, values)


def read_node_selector(place):
    if place.get("nodeSelectorTerms") is None:
        place.fail("Missing", "nodeSelectorTerms")
    if len(place.list("nodeSelectorTerms", None)) != 1:
        place.fail("NotOne", "nodeSelectorTerms")
    (term,) = place.places("nodeSelectorTerms", None)
    return NodeChoice(
        expressions=[read_requirement(item, False) for item in term.places("matchExpressions", None)],
        fields=[read_requirement(item, True) for item in term.places("matchFields", None)],
    )


def read_node_choices(place, also=()):
    """The members that say which nodes see something, as far as they are set, in a list; `also` names one more."""
    choices = []
    if place.optional_text("nodeName"):
        choices.append(NodeChoice(name=place.text("nodeName")))
    if place.get("nodeSelector") is not None:
        choices.append(read_node_selector(place.object("nodeSelector")))
    if place.truth("allNodes"):
        choices.append(NodeChoice(everywhere=True))
    choices += [None for name in also if place.truth(name)]
    return choices


# Slices


def read_counters(spec):
    """The counter sets. A slice with devices has none, whatever they are."""
    sets = {}
    if spec.list("sharedCounters", None) and spec.get("devices") not in (None, []):
        spec.fail("NotOne", "sharedCounters")
    for place in spec.places("sharedCounters", None):
        name = place.name("name", 63, is_dns_label)
        check_new(name, sets, place.at("name"))
        place.needed("counters")
        counters = place.table("counters")
        if len(counters) + sum(len(one) for one in sets.values()) > 32:
            spec.fail("TooMany", "sharedCounters")
        sets[name] = {}
        for key, value, path in counters:
            check_name(key, 63, is_dns_label, path)
            sets[name][key] = Place(there(value, path), path).quantity("value", False)
    return sets


def read_attribute(place):
    forms = []
    if place.get("int") is not None:
        forms.append(("int", place.whole("int", -(2**63), 2**63 - 1)))
    if place.get("bool") is not None:
        forms.append(("bool", place.truth("bool")))
    for name in ("string", "version"):
        if place.get(name) is not None:
            text = place.text(name)
            if len(text) > 64:
                place.fail("TooLong", name)
            if name == "version" and not is_version(text):
                place.fail("BadVersion", name)
            forms.append((name, text))
    if len(forms) != 1:
        raise FieldError("NotOne", place.path)
    return forms[0]


def read_attributes(place, driver):
    attributes = {}
    for key, value, path in place.table("attributes"):
        name = check_qualified(key, driver, path)
        check_new(name, attributes, path)
        attributes[name] = read_attribute(Place(there(value, path), path))
    return attributes


def read_capacity(place, driver, attributes):
    capacity = {}
    if len(place.table("capacity")) + len(attributes) > 32:
        place.fail("TooMany", "capacity")
    for key, value, path in place.table("capacity"):
        name = check_qualified(key, driver, path)
        check_new(name, capacity, path)
        amount = Place(there(value, path), path)
        capacity[name] = amount.quantity("value", True)
        amount.left_out("requestPolicy")
    return capacity


def read_draws(device):
    """The sets that a device draws from, and what it draws: the set, the counter and the amount, in the order of the
    list and then of the names."""
    draws = []
    seen = []
    for place in device.places("consumesCounters", None):
        name = place.text("counterSet")
        check_new(name, seen, place.at("counterSet"))
        seen.append(name)
        place.needed("counters")
        amounts = place.table("counters")
        if len(amounts) + len(draws) > 32:
            device.fail("TooMany", "consumesCounters")
        for key, value, path in amounts:
            draws.append((name, key, Place(there(value, path), path).quantity("value", False)))
    return seen, draws


EFFECTS = ("NoSchedule", "NoExecute")


def read_taint(place):
    key = place.name("key", 317, bool)
    value = place.optional_text("value") or ""
    if len(value.encode()) > 63:
        place.fail("TooLong", "value")
    effect = place.text("effect")
    if effect not in EFFECTS:
        place.fail("NotSupported", "effect")
    return Taint(key, value, effect)


def read_toleration(place):
    key = place.optional_text("key") or ""
    operator = "Equal" if place.get("operator") is None else place.text("operator")
    if operator not in ("Equal", "Exists"):
        place.fail("NotSupported", "operator")
    value = place.optional_text("value") or "" if operator == "Equal" else ""
    effect = place.optional_text("effect") or ""
    if effect not in ("", *EFFECTS):
        place.fail("NotSupported", "effect")
    if operator == "Equal" and not key:
        place.fail("Missing", "key")
    return Toleration(key, operator, value, effect)


def read_slice(top):
    metadata = read_metadata(top, "ResourceSlice")
    spec = top.object("spec")
    driver = spec.name("driver", 63, subdomain(63))
    pool = spec.object("pool")
    pool_name = pool.name("name", 253, is_pool_name)
    generation = pool.whole("generation", 0, 2**63 - 1)
    slice_count = pool.whole("resourceSliceCount", 1, 2**63 - 1)
    choices = read_node_choices(spec, ("perDeviceNodeSelection",))
    if len(choices) != 1:
        raise FieldError("NotOne", spec.path)
    counters = read_counters(spec)
    places = spec.places("devices", 128)
    devices = []
    for place in places:
        name = place.name("name", 63, is_dns_label)
        check_new(name, [device.name for device in devices], place.at("name"))
        devices.append(Device(name))
    for place, device in zip(places, devices):
        device.attributes = read_attributes(place, driver)
    for place, device in zip(places, devices):
        device.capacity = read_capacity(place, driver, device.attributes)
    for place, device in zip(places, devices):
        device.sets, device.draws = read_draws(place)
    for place, device in zip(places, devices):
        own = read_node_choices(place)
        if len(own) != (1 if choices[0] is None else 0):
            raise FieldError("NotOne", place.path)
        device.nodes = own[0] if own else None
    for place, device in zip(places, devices):
        device.taints = [read_taint(taint) for taint in place.places("taints", 16)]
    for place in places:
        place.left_out("allowMultipleAllocations", "bindingConditions", "bindingFailureConditions", "bindsToNode")
    return SliceObject(metadata, driver, pool_name, generation, slice_count, choices[0], counters, devices)


# Classes and claims


def read_selectors(place):
    """The texts of selectors, each with its path. They are compiled when all fields have been read."""
    selectors = []
    for item in place.places("selectors", 32):
        cel = item.object("cel")
        selectors.append((cel.text("expression"), cel.at("expression")))
    return selectors


def compiled(selectors):
    texts = []
    for text, path in selectors:
        stage = selector_texts.refused(text)
        if stage:
            raise FieldError(f"Selector.{stage}", path)
        texts.append(text)
    return texts


def read_class(top):
    metadata = read_metadata(top, "DeviceClass")
    return ClassObject(metadata, compiled(read_selectors(top.optional_object("spec"))))


def read_way(place, label, admin):
    device_class = place.text("deviceClassName")
    selectors = read_selectors(place)
    mode = place.optional_text("allocationMode")
    if mode not in (None, "ExactCount", "All"):
        place.fail("NotSupported", "allocationMode")
    count = 0 if place.get("count") is None else place.whole("count", 0, 0 if mode == "All" else 2**31 - 1)
    granted = place.truth("adminAccess") if admin else False
    tolerations = [read_toleration(item) for item in place.places("tolerations", 16)]
    place.left_out("capacity")
    return Way(label, device_class, selectors, None if mode == "All" else count or 1, granted, tolerations)


def read_claim(top):
    metadata = read_metadata(top, "ResourceClaim")
    devices = top.object("spec").object("devices")
    places = devices.places("requests", 32, least=1)
    requests = []
    for place in places:
        name = place.name("name", 63, is_dns_label)
        check_new(name, [request.name for request in requests], place.at("name"))
        if (place.get("exactly") is not None) == (place.get("firstAvailable") not in (None, [])):
            raise FieldError("NotOne", place.path)
        requests.append(Request(name, []))
    for place, request in zip(places, requests):
        if place.get("exactly") is not None:
            request.ways.append(read_way(place.object("exactly"), request.name, True))
        else:
            request.ways += [read_way(way, None, False) for way in place.places("firstAvailable", None)]
    for place, request in zip(places, requests):
        names = []
        for way, read in zip(place.places("firstAvailable", 8), request.ways):
            name = way.name("name", 63, is_dns_label)
            check_new(name, names, way.at("name"))
            names.append(name)
            read.label = f"{request.name}/{name}"
    constraints = [read_constraint(place, requests) for place in devices.places("constraints", 32)]
    for request in requests:
        for way in request.ways:
            way.selectors = compiled(way.selectors)
    return ClaimObject(metadata, requests, constraints)


def read_constraint(place, requests):
    place.left_out("distinctAttribute")
    known = [request.name for request in requests] + [way.label for request in requests for way in request.ways]
    names = []
    for value, path in place.list("requests", None):
        if text_item(value, path) not in known:
            raise FieldError("Unknown", path)
        names.append(value)
    text = place.text("matchAttribute")
    if "/" not in text:
        place.fail("BadName", "matchAttribute")
    return Constraint(names, check_qualified(text, "", place.at("matchAttribute")))


def read_status(top):
    metadata = read_metadata(top, "ResourceClaim")
    status = top.object("status")
    allocation = status.object("allocation")
    results = []
    for place in allocation.object("devices").places("results", 32, least=1):
        name = place.text("request")
        device = "/".join(place.text(member) for member in ("driver", "pool", "device"))
        results.append(Result(name, device, place.truth("adminAccess")))
    node = node_of_selector(allocation.object("nodeSelector"))
    status.left_out("reservedFor")
    return Status(metadata, node, results)


def node_of_selector(place):
    """The node of a grant: the one value of the one requirement, that `metadata.name` is In it."""
    try:
        (term,) = place.members["nodeSelectorTerms"]
        (requirement,) = term["matchFields"]
        (node,) = requirement["values"]
        named = requirement["key"] == "metadata.name" and requirement["operator"] == "In"
    except (KeyError, TypeError, ValueError):
        raise FieldError("NotSupported", place.path) from None
    if not named or not isinstance(node, str) or term.get("matchExpressions") not in (None, []):
        raise FieldError("NotSupported", place.path)
    return node


def read_pod(top):
    metadata = read_metadata(top, "Pod")
    spec = top.optional_object("spec")
    if spec.get("nodeName") not in (None, ""):
        spec.fail("NotSupported", "nodeName")
    entries = []
    for place in spec.places("resourceClaims", 32):
        place.left_out("resourceClaimTemplateName")
        entries.append((place.text("name"), place.text("resourceClaimName")))
    return PodObject(metadata, entries)


READERS = {
    "Node": read_node,
    "ResourceSlice": read_slice,
    "DeviceClass": read_class,
    "ResourceClaim": read_claim,
    "Pod": read_pod,
}


def read_object(kind, document):
    """The object of a document, or its first error."""
    return READERS[kind](Place(document, ""))
