"""A measure, as Prometheus reads it."""
import math
from typing import Dict, Iterator, NamedTuple, Union

from holzhebo.faults import Json

Number = Union[int, float]


class Measure(NamedTuple):
    """Its name without `broker_`, its kind (counter, gauge or histogram), what it means, and its values by their labels;
    before a bar is what the name of a histogram's value ends in."""

    name: str
    kind: str
    about: str
    values: Dict[str, Number]

    def lines(self) -> Iterator[str]:
        yield f"# HELP broker_{self.name} {self.about}"
        yield f"# TYPE broker_{self.name} {self.kind}"
        for key, value in self.values.items():
            end, _, labels = key.rpartition("|")
            yield f"broker_{self.name}{end}{f'{{{labels}}}' if labels else ''} {number(value)}"

    def json(self) -> Json:
        """The one value, or those by their labels; what is endless is null."""
        found = {key: None if math.isinf(it) else it for key, it in self.values.items()}
        return found[""] if list(found) == [""] else found


def gauge(name: str, about: str, value: Number) -> Measure:
    return Measure(name, "gauge", about, {"": value})


def number(value: Number) -> str:
    if math.isinf(value):
        return "+Inf"
    return str(value) if isinstance(value, int) else f"{value:.3f}"


ESCAPES = str.maketrans({"\\": "\\\\", '"': '\\"', "\n": "\\n"})


def label(key: str, value: object) -> str:
    return f'{key}="{str(value).translate(ESCAPES)}"'
