"""How a command ends."""
from typing import Any

Json = Any  # what JSON text is read as
DONE, NO, USAGE, UNDONE = 0, 1, 2, 3


class Stop(Exception):
    """Why a command can't be done: one line of standard error, and the broker's answer if there is one."""

    def __init__(self, why: str, answer: Json = None, status: int = UNDONE) -> None:
        super().__init__(why)
        self.answer, self.status = answer, status
