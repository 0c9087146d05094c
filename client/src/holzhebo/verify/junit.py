"""Verdicts in JUnit's format: one suite a contract."""
import xml.etree.ElementTree
from typing import List

from holzhebo.faults import Json
from holzhebo.text import listed, short, shown
from holzhebo.verify.provider import NOT_PLAYED, Played
from holzhebo.verify.session import NOT_JUDGED, NOT_SENT, Verdict

Element = xml.etree.ElementTree.Element
Below = xml.etree.ElementTree.SubElement
# What is said of replies without a verdict.
LACKING = {NOT_SENT: "sent", NOT_JUDGED: "judged"}


def title(interaction: Json) -> str:
    """The description of an interaction, with its states."""
    names = listed([it["name"] for it in interaction["providerStates"]])
    return short(interaction["description"]) + (f" ({names})" if names else "")


def add_failure(test_case: Element, lines: List[str]) -> None:
    """Adds the failure to a test case: the first line as its message, all lines as its text."""
    more = f" (and {len(lines) - 1} more)" if lines[1:] else ""
    Below(test_case, "failure", {"message": shown(lines[0]) + more}).text = "\n".join(map(shown, lines))


def add_case(suite: Element, verdict: Verdict, it: Played) -> None:
    """A test case: failed if it differs, an error if it can't be played, skipped if the contract isn't sent for another
    reason."""
    case = Below(suite, "testcase", {"name": title(it.interaction), "classname": verdict.name})
    if it.outcome == "failed":
        add_failure(case, it.lines or [it.why])
    elif it.outcome == NOT_PLAYED:
        Below(case, "error", {"message": shown(it.why)})
    elif it.outcome != "passed":
        Below(case, "skipped", {"message": shown(verdict.why)})


def junit(verdicts: List[Verdict], ended_by: str = "") -> str:
    """What isn't sent is an error, and so is what ended the run before its end."""
    suites = Element("testsuites")
    for verdict in verdicts:
        suite = Below(suites, "testsuite", {"name": verdict.name})
        for it in verdict.played:
            add_case(suite, verdict, it)
        if verdict.outcome in LACKING and not any(it.outcome == NOT_PLAYED for it in verdict.played):
            add_error(suite, verdict.name, f"the replies are {LACKING[verdict.outcome]}", verdict.why)
        if verdict.disagrees:
            add_error(suite, verdict.name, "the broker and this client agree", "they don't: see the lines of the cases")
    if ended_by:
        add_error(Below(suites, "testsuite", {"name": "holzhebo verify"}), "holzhebo verify", "it ends", ended_by)
    for suite in suites:
        places = ("tests", "testcase"), ("failures", "testcase/failure"), ("errors", "testcase/error")
        for key, path in (*places, ("skipped", "testcase/skipped")):
            suite.set(key, str(len(suite.findall(path))))
    return xml.etree.ElementTree.tostring(suites, encoding="unicode") + "\n"


def add_error(suite: Element, classname: str, name: str, why: str) -> None:
    case = Below(suite, "testcase", {"name": name, "classname": classname})
    Below(case, "error", {"message": shown(why)})
