"""Work that threads do beside one another."""
import contextlib, threading
from concurrent.futures import Future
from typing import Callable, List, Sequence, Tuple, TypeVar

A = TypeVar("A")
B = TypeVar("B")


def in_threads(most: int, work: Callable[[A], B], items: Sequence[A]) -> List[B]:
    """What the work makes of each item, in their order, so many at once. If it ends before, by a fault or a signal,
    nothing more is begun, and nobody waits for what is under way: neither who asks nor the end of the program."""
    found: List[Tuple[A, "Future[B]"]] = [(it, Future()) for it in items]
    left = found[::-1]

    def works() -> None:
        with contextlib.suppress(IndexError):  # nothing is left
            while True:
                it, made = left.pop()
                try:
                    made.set_result(work(it))
                except BaseException as why:
                    made.set_exception(why)

    for _ in range(min(most, len(items))):
        threading.Thread(target=works, daemon=True).start()
    try:
        return [made.result() for _, made in found]
    finally:
        left.clear()
