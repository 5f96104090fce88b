"""An own model of `gatt_shell compare`: tables as data, and what is opened, closed and moved, by the definition in words.

A table is a list of services: (type, characteristics). A characteristic is a dictionary with the keys of a
table file and "descriptors", a list of such dictionaries.
"""

from dataclasses import dataclass
from itertools import product

# No key, and each key: its size, authenticated, of LE Secure Connections.
EVERY_KIND = [None] + [
    (size, authenticated, secure)
    for secure, authenticated in product((False, True), repeat=2)
    for size in range(7, 17)
]
NOTHING = "Nothing is %s, for clients with every kind of key and without one."


@dataclass(eq=False)
class Attribute:
    """A value or a descriptor."""

    handle: int
    type: str
    data: dict
    is_value: bool
    service: tuple  # The type of the service, its number among those of the type, and how many there are.
    value: tuple  # The type of the value, its number in the service, and how many there are.
    own: tuple  # The type of the descriptor, its number in the characteristic, and how many there are.


def toml_of(services):
    """The table file."""
    lines = []
    for kind, characteristics in services:
        lines += ["[[service]]", f'uuid = "{kind}"']
        for one in characteristics:
            lines += ["[[service.characteristic]]", *lines_of(one)]
            for descriptor in one.get("descriptors", []):
                lines += ["[[service.characteristic.descriptor]]", *lines_of(descriptor)]
    return "\n".join([*lines, ""])


def lines_of(data):
    def text(value):
        if isinstance(value, bool):
            return str(value).lower()
        if isinstance(value, dict):
            return "{ " + ", ".join(f"{key} = {text(part)}" for key, part in value.items()) + " }"
        return str(value) if isinstance(value, int) else str(value).replace("'", '"') if isinstance(value, list) else f'"{value}"'

    return [f"{key} = {text(value)}" for key, value in data.items() if key != "descriptors"]


def numbered(things):
    """Each with its number among those of its type, and how many there are."""
    return [(kind, things[:at].count(kind), things.count(kind)) for at, kind in enumerate(things)]


def attributes_of(services):
    handle, found = 0, []
    for (_, characteristics), service in zip(services, numbered([kind for kind, _ in services])):
        handle += 1
        for one, value in zip(characteristics, numbered([one["uuid"] for one in characteristics])):
            handle += 2
            found.append(Attribute(handle, one["uuid"], one, True, service, value, None))
            handle += bool({"notify", "indicate"} & set(one["properties"]))
            descriptors = one.get("descriptors", [])
            for descriptor, own in zip(descriptors, numbered([one["uuid"] for one in descriptors])):
                handle += 1
                found.append(Attribute(handle, descriptor["uuid"], descriptor, False, service, value, own))
    return found


def meets(need, kind, is_authorized):
    size, authenticated, secure = kind or (0, False, False)
    return not (
        (need.get("authorized") and not is_authorized)
        or (need.get("encrypted") and not kind)
        or (need.get("authenticated") and not authenticated)
        or (need.get("secure") and not (secure and authenticated and size == 16))
        or need.get("key_size", 0) > size
    )


def rights(attribute, kind, is_authorized):
    """The letters of the uses that the server grants."""
    data, properties = attribute.data, attribute.data["properties"]
    reads, writes, configures = (meets(data.get(rule, {}), kind, is_authorized) for rule in ("read", "write", "config"))
    return {
        letter
        for letter, holds in {
            "r": "read" in properties and reads,
            "w": "write" in properties and writes,
            "c": "command" in properties and writes,
            "n": "notify" in properties and reads,
            "i": "indicate" in properties and reads,
            "s": ("notify" in properties or "indicate" in properties) and configures,
        }.items()
        if holds
    }


def pairs_of(attributes, others):
    """The attribute that surely corresponds to each, if there is one: all numbers and counts are equal."""
    there = {(other.is_value, other.service, other.value, other.own): other for other in others}
    return {one: there.get((one.is_value, one.service, one.value, one.own)) for one in attributes}


def places_of(attributes, others):
    """The same, or the nth uncertain one of the type for the nth."""
    here, there = pairs_of(attributes, others), pairs_of(others, attributes)
    loose, others_loose = ([one for one, pair in pairs.items() if not pair] for pairs in (here, there))
    places = {}
    for one in attributes:
        number = [other.type for other in loose if other.handle < one.handle].count(one.type)
        places[one] = here[one] or dict(enumerate(other for other in others_loose if other.type == one.type)).get(number)
    return places


def words(kinds):
    """Kinds in words."""
    if len(kinds) == len(EVERY_KIND):
        return "everybody"
    if kinds == EVERY_KIND[1:]:
        return "every key"
    runs = []
    for kind in kinds:
        if kind and runs and runs[-1][-1] and runs[-1][-1][0] + 1 == kind[0] and runs[-1][-1][1:] == kind[1:]:
            runs[-1].append(kind)
        else:
            runs.append([kind])
    return "; ".join(run_words(run) for run in runs)


def run_words(run):
    if run[0] is None:
        return "no key"
    (first, authenticated, secure), last = run[0], run[-1][0]
    return (
        f"key of {first}" + f" to {last}" * (last != first) + ", authenticated" * authenticated + ", secure connections" * secure
    )


def name(attribute):
    return f"{attribute.handle:5}  {attribute.type}"


def gained(attributes, others):
    """The lines of what these attributes open, without columns."""
    lines = []
    for one, pair in pairs_of(attributes, others).items():
        before = [pair] if pair else [other for other in others if other.type == one.type]
        cells = {}
        for kind in EVERY_KIND:
            always, once = (
                rights(one, kind, is_authorized)
                - set.intersection(*([rights(other, kind, is_authorized) for other in before] or [set()]))
                for is_authorized in (False, True)
            )
            if always | once:
                cells.setdefault(letters(always) + f"({letters(once - always)})" * bool(once - always), []).append(kind)
        lines += [f"{name(one)}  {cell}  {words(kinds)}" for cell, kinds in cells.items()]
    return lines


def letters(found):
    return "".join(letter for letter in "rwcnis" if letter in found)


def need_words(need):
    """What a need asks of a link."""
    size = f", key of {need['key_size']}" if "key_size" in need else ""
    authorized = need.get("authorized", False)
    if need.get("secure"):
        found = "if secure connections"
    elif need.get("authenticated"):
        found = "if authenticated" + size
    elif need.get("encrypted") or size:
        found = "if encrypted" + size
    else:
        return "if authorized" if authorized else "for everybody"
    return found + ", authorized" * authorized


def facts_of(attribute):
    """What can change of an attribute, in words."""
    data, properties = attribute.data, attribute.data["properties"]
    has_configuration = attribute.is_value and {"notify", "indicate"} & set(properties)
    most, order = data.get("max", len(data["value"]) // 2), ("read", "notify", "indicate", "write", "command")
    return {
        "read": need_words(data.get("read", {})),
        "write": need_words(data.get("write", {})),
        "config": need_words(data.get("config", {})) if has_configuration else "none",
        "properties": " ".join(word for word in order if word in properties) or "none",
        "length": str(most) if data.get("fixed") else f"0-{most}",
        "value": data["value"] or "empty",
    }


def changed(attributes, others):
    lines = []
    for one, place in places_of(attributes, others).items():
        before = facts_of(place) if place else {}
        lines += [
            f"{name(one)}  {fact} {text}, was {before[fact]}"
            for fact, text in facts_of(one).items()
            if fact in before and before[fact] != text
        ]
    return lines


def moved(attributes, others):
    return [
        f"{name(one)} was {place.handle}"
        for one, place in places_of(attributes, others).items()
        if place and place.handle != one.handle
    ]


def alone(attributes, others):
    return [name(one) for one, place in places_of(attributes, others).items() if not place]


def subscriptions(old, new):
    """The lines of the values whose subscriptions are dropped, and of those whose subscriptions last although they are closed."""
    dropped, lasting = [], []
    at = {one.handle: one for one in new if one.is_value}
    for one in old:
        bits = {"notify", "indicate"} & set(one.data["properties"])
        if not (one.is_value and bits):
            continue
        after = at.get(one.handle)
        kept = {"notify", "indicate"} & set(after.data["properties"]) if after and after.type == one.type else set()
        if not (kept and bits <= kept):
            dropped.append(name(one))
        kinds = [
            kind
            for kind in EVERY_KIND
            if any(
                "s" in rights(one, kind, is_authorized)
                and "s" not in rights(after, kind, is_authorized)
                and {bit[0] for bit in bits & kept} & rights(after, kind, is_authorized)
                for is_authorized in (False, True)
                if kept
            )
        ]
        if kinds:
            lasting.append(f"{name(one)}  {words(kinds)}")
    return dropped, lasting


def section(heading, lines, nothing=()):
    return [heading, *lines] if lines else [*nothing]


def compared(old, new):
    """All lines that `compare` prints before the one about Service Changed, without a key file."""
    before, after = attributes_of(old), attributes_of(new)
    dropped, lasting = subscriptions(before, after)
    return [
        *section("Opened:", gained(after, before), [NOTHING % "opened"]),
        *section("Closed:", gained(before, after), [NOTHING % "closed"]),
        *section("Changed:", changed(after, before)),
        *section("Moved to another handle:", moved(after, before)),
        *section("New:", alone(after, before)),
        *section("Gone:", alone(before, after)),
        *section("Subscriptions that are dropped:", dropped),
        *section("Subscriptions that last although they are closed:", lasting),
    ]
