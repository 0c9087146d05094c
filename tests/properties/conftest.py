"""How properties are tried: by the same examples each time, so that a change is judged by itself. More are drawn by

    /usr/bin/python3 -m pytest tests/properties --program PATH --hypothesis-profile more

A failure prints the smallest example that hypothesis finds, and the line `@reproduce_failure(..)` that repeats it."""
from hypothesis import HealthCheck, settings
from hypothesis.configuration import set_hypothesis_home_dir
from tests.process import TOP

set_hypothesis_home_dir(f"{TOP}/out/hypothesis")  # type: ignore[no-untyped-call]
ALWAYS = settings(
    deadline=None, print_blob=True, suppress_health_check=[HealthCheck.too_slow, HealthCheck.data_too_large]
)
settings.register_profile("usual", ALWAYS, max_examples=60, derandomize=True)
settings.register_profile("more", ALWAYS, max_examples=3000, database=None)
settings.load_profile("usual")
