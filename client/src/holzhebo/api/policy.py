"""What may be sent again, and when."""
from typing import Optional

from holzhebo.api.http import Answer, NoAnswer, Untrusted

FIRST_PAUSE, LONGEST_PAUSE = 0.1, 5.0
GATEWAY = (502, 503, 504)  # what a proxy answers while it doesn't reach the broker
MANY = 429  # and what, if too much is asked
BY_A_PROXY = (*GATEWAY, MANY)


def may_repeat(is_idempotent: bool, answer: Optional[Answer], why: Optional[NoAnswer]) -> bool:
    """Whether a request may be sent again after this answer, or after this end without one. If nothing was sent, or a
    proxy refused it for now, nothing can count twice."""
    if why is not None:
        return not isinstance(why, Untrusted) and (not why.was_sent or is_idempotent and why.is_closed)
    return answer is not None and (answer.status == MANY or is_idempotent and answer.status in GATEWAY)


def may_have_arrived(answer: Optional[Answer], why: Optional[NoAnswer]) -> bool:
    """Whether an attempt that is repeated may have done what it asks for."""
    return why.was_sent if why is not None else answer is not None and answer.status != MANY


def pause_before(number: int, answer: Optional[Answer]) -> float:
    """How long to wait before the attempt of this number, from 1: what the answer asks for, or twice as long each time
    if it asks for nothing, or for no pause."""
    asked = answer.headers.get("retry-after", "") if answer is not None else ""
    wanted = float(asked[:9]) if asked.isascii() and asked.isdigit() else 0.0
    return wanted or float(min(FIRST_PAUSE * 2 ** min(number - 1, 16), LONGEST_PAUSE))
