"""Answers as dataclasses: what an answer says is looked at by the shape that its route has."""
import dataclasses, re, typing
from typing import Any, Type, TypeVar

from holzhebo.faults import Json

T = TypeVar("T")


class BadShape(Exception):
    """Where a value has another shape."""


def key_of(name: str) -> str:
    """The key of a field, as `consumerVersion` of `consumer_version`."""
    return re.sub(r"_([a-z])", lambda it: it[1].upper(), name)


def shaped(cls: Type[T], value: Json, path: str = "$") -> T:
    """The value as this dataclass. A key may be missing only if its field has a default; other keys are ignored."""
    if not isinstance(value, dict):
        raise BadShape(path)
    hints = typing.get_type_hints(cls)
    given = {}
    for it in dataclasses.fields(typing.cast(Any, cls)):
        key = key_of(it.name)
        if key in value:
            given[it.name] = as_type(hints[it.name], value[key], f"{path}.{key}")
        elif it.default is dataclasses.MISSING:
            raise BadShape(f"{path}.{key}")
    return cls(**given)


def as_type(hint: Any, value: Json, path: str) -> Any:
    inner = typing.get_args(hint)
    if typing.get_origin(hint) is list:
        if not isinstance(value, list):
            raise BadShape(path)
        return [as_type(inner[0], it, f"{path}[{at}]") for at, it in enumerate(value)]
    if inner:  # Optional
        return None if value is None else as_type(inner[0], value, path)
    if dataclasses.is_dataclass(hint):
        return shaped(typing.cast(Any, hint), value, path)
    if type(value) is not hint:
        raise BadShape(path)
    return value
