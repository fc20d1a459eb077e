"""The schema of the Debug Adapter Protocol. Debian's package python3-debugpy does not carry debugProtocol.json itself, but a module with a class
for each type, which was made from that file: the properties of a type, with what they may be, and as parameters of its constructor those
that may be left out.
"""
import importlib
import inspect
import sys

FOLDER = "/usr/lib/python3/dist-packages"
PACKAGE = "_pydevd_bundle._debug_adapter."
JSON = {"string": str, "integer": int, "number": (int, float), "boolean": bool, "object": dict, "array": list, "null": type(None)}


class Missing(Exception):
    """The package is not there."""


def is_of(value, name):
    """Whether a value is of a type of JSON."""
    return isinstance(value, JSON[name]) and (name in ("boolean", "null") or not isinstance(value, bool))


class Schema:
    """The types of the protocol, and which of them a message has."""

    def __init__(self):
        if FOLDER not in sys.path:
            sys.path.append(FOLDER)
        try:
            self.types = importlib.import_module(PACKAGE + "pydevd_schema")
            kinds = importlib.import_module(PACKAGE + "pydevd_base_schema")
        except ImportError as fault:
            raise Missing(str(fault)) from None
        self.kinds = {"request": kinds._requests_to_types, "response": kinds._responses_to_types, "event": kinds._event_to_types}

    def faults(self, message):
        """What is wrong with a message."""
        kind = message.get("type") if isinstance(message, dict) else None
        if kind not in self.kinds:
            return ["no request, no response and no event"]
        name = message.get("event" if kind == "event" else "command")
        if kind == "response" and message.get("success") is False:
            return list(self.of_type("ErrorResponse", message, "the answer"))
        found = self.kinds[kind].get(name)
        return list(self.of_type(found.__name__, message, name)) if found else ["there is no %s %r" % (kind, name)]

    def of_type(self, name, value, at):
        """What is wrong with a value that is to have a type."""
        found = getattr(self.types, name)
        if not found.__props__:
            # an enumeration, or arguments that are free
            if not isinstance(value, (str, dict)):
                yield "%s is no %s" % (at, name)
            return
        parameters = inspect.signature(found.__init__).parameters
        fixed = [it for it, rule in found.__props__.items() if len(rule.get("enum", ())) == 1]
        needed = fixed + [it for it in found.__props__ if it == "seq" or it in parameters and parameters[it].default is inspect.Parameter.empty]
        is_free = name.endswith("RequestArguments")
        yield from self.of_object({"properties": found.__props__, "required": needed, "additionalProperties": is_free}, value, at)

    def of_object(self, rule, value, at):
        """What is wrong with an object. A property that the schema does not have is wrong, too, though it would be passed over."""
        if not isinstance(value, dict):
            yield "%s is no object" % at
            return
        for name in rule.get("required", ()):
            if name not in value:
                yield "%s has no %s" % (at, name)
        for name, one in value.items():
            if name in rule.get("properties", {}):
                yield from self.of_rule(rule["properties"][name], one, "%s.%s" % (at, name))
            elif not rule.get("additionalProperties"):
                yield "%s.%s is not in the schema" % (at, name)

    def of_rule(self, rule, value, at):
        """What is wrong with a value that is to follow a rule."""
        if "$ref" in rule:
            yield from self.of_type(rule["$ref"].rpartition("/")[2], value, at)
            return
        names = rule.get("type", [])
        if isinstance(names, str) and names not in JSON:
            yield from self.of_type(names, value, at)
            return
        names = [names] if isinstance(names, str) else names
        if names and not any(is_of(value, name) for name in names):
            yield "%s is no %s" % (at, " or ".join(names))
        elif "enum" in rule and value not in rule["enum"]:
            yield "%s is none of %s" % (at, rule["enum"])
        elif "properties" in rule:
            yield from self.of_object(rule, value, at)
        elif isinstance(value, list) and "items" in rule:
            for number, one in enumerate(value):
                yield from self.of_rule(rule["items"], one, "%s[%d]" % (at, number))
