"""The lines of the page for the requests of test_report.py, written by hand."""

WANTED = {
    "What is where": [
        "Of the versions that are in gated environments, the gate would have refused 2 when the copy was made.",
        "service|live gated|open open|test open|vault gated, strict",
        "shop|1 released;3 released, deployed refused then|||",
        "stock|1 refused then|||1",
        "shop 3 in live",
        "stock 1 fails the contract of shop 3, by its latest result: failed, for the teams red and blue",
        "stock 1 in live",
        "stock 1 fails the contract of shop 3, by its latest result: failed, for the teams red and blue",
    ],
    "Consumers with another contract than their newest": [
        "consumer|environment|version there|provider|newest version with a contract",
        "shop|live|1|stock|4",
        "shop|live|3|stock|4",
    ],
    "What providers have to verify": [
        "provider|team|its newest version|consumer|version|where that is|what lacks",
        "stock|blue|1|shop|3|live|failed",
        "stock|blue|1|shop|4|the newest|failed",
    ],
    "Owners and grants": [
        "team|owns|may change what is in",
        "blue|stock|live, open, vault",
        "green|web|test",
        "red|shop|live, vault",
    ],
    "Names that nothing uses": [
        "web has no version, and no contract names it.",
        "Nothing is in open.",
        "Nothing is in test.",
    ],
    "Claimed and checked": [
        "what the versions that are there need|checked|claimed|failed|missing|absent",
        "live gated|0|1|1|0|0",
        "open open|0|0|0|0|0",
        "test open|0|0|0|0|0",
        "vault gated, strict|0|0|0|0|0",
        "all results of a provider|results|checked, pass|checked, failure|claimed, pass|claimed, failure",
        "stock|4|1|0|1|2",
    ],
}
SINCE = [
    "+ team green",
    "+ web, of the team green",
    "+ environment test, open",
    "+ grant: green for test",
    "− grant: red for open",
    "+ version shop 4",
    "+ branch main of shop 4",
    "+ contract of shop 4 with stock",
    "+ result 3 of stock 1: failure, claimed",
    "+ result 4 of stock 1: failure, claimed",
    "+ shop 3 deployed in live",
    "− stock 1 deployed in open",
    "+ shop 1 released in live",
    "+ shop 3 released in live",
]
ROWS = ["teams|3|+1", "pacticipants|3|+1", "versions|5|+1", "branches|1|+1", "environments|4|+1", "grants|6|+0"]
ROWS += ["contents|4|+1", "contracts|4|+1", "results|4|+2", "latest|3|+1", "deployed|3|+0", "released|2|+2"]
