"""Holds messages against the published types of the Debug Adapter Protocol: protocol.json, which tools/protocol writes."""
import json
import os

with open(os.path.join(os.path.dirname(os.path.realpath(__file__)), "protocol.json"), encoding="utf-8") as it:
    TABLE = json.load(it)
TYPES = TABLE["types"]
PLAIN = {"string": str, "boolean": bool, "null": type(None)}


def members_of(name):
    """Returns the members of an interface, with those of its bases."""
    found = TYPES[name]
    return {**(members_of(found["base"]) if "base" in found else {}), **found["members"]}


def faults_of_object(value, members, path):
    if not isinstance(value, dict):
        yield f"{path} is no object: {value!r}"
        return
    for name in value:
        if name not in members:
            yield f"{path} has an unknown member {name}"
    for name, member in members.items():
        if name in value:
            yield from faults_of(value[name], member["type"], f"{path}.{name}")
        elif not member["optional"]:
            yield f"{path} lacks {name}"


def is_plain(value, name):
    if name == "number":
        return isinstance(value, int) and not isinstance(value, bool)
    return isinstance(value, PLAIN[name])


def faults_of(value, kind, path):
    """Yields what keeps a value from being of a type."""
    if isinstance(kind, str):
        if kind == "any":
            return
        if kind in TYPES:
            found = TYPES[kind]
            yield from faults_of(value, {"members": members_of(kind)} if "members" in found else found, path)
        elif not is_plain(value, kind):
            yield f"{path} is no {kind}: {value!r}"
    elif "members" in kind:
        yield from faults_of_object(value, kind["members"], path)
    elif "items" in kind:
        if not isinstance(value, list):
            yield f"{path} is no array: {value!r}"
            return
        for index, item in enumerate(value):
            yield from faults_of(item, kind["items"], f"{path}[{index}]")
    elif "values" in kind:
        for name, item in value.items():
            yield from faults_of(item, kind["values"], f"{path}.{name}")
    elif "any of" in kind:
        if not any(next(faults_of(value, it, path), None) is None for it in kind["any of"]):
            yield f"{path} is none of {kind['any of']}: {value!r}"
    elif value != kind["literal"]:
        yield f"{path} isn't {kind['literal']!r}: {value!r}"


def type_of(message):
    """Returns the published type of a message of an adapter, or None."""
    if message.get("type") == "event":
        return TABLE["events"].get(message.get("event"))
    if message.get("type") != "response":
        return None
    if message.get("success") is not True:
        return "ErrorResponse"
    found = TABLE["commands"].get(message.get("command"))
    return found and found["response"]


def faults_of_message(message):
    """Yields what keeps a message from being a response or an event of the protocol."""
    if not isinstance(message, dict):
        yield f"no object: {message!r}"
        return
    kind = type_of(message)
    if kind is None:
        yield f"no message of an adapter: {message!r}"
        return
    yield from faults_of(message, kind, kind)
    if kind == "ErrorResponse" and "error" not in (message.get("body") or {}):
        yield f"a refusal without body.error: {message!r}"
