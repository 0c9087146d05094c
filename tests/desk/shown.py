"""What the page of desk/ has to show of the demo: written by hand from the scenario that examples/demo.sh says, from
docs/DESK.md and from docs/API.md, and never taken from the page or the program."""

HEADS = ["service", "dev open", "staging gated", "live strict"]
BOARD = [
    HEADS,
    ["pay", "7", "7", "–"],
    ["shop", "1.4", "1.3", "1.3"],
    ["stock", "2.0", "1.0", "1.0 1.1 deployed as canary"],
    ["web", "7", "5", "5 4 released"],
]
TODAY = [
    HEADS,
    ["pay", "7 ✓ no faults", "7 ✓ no faults", "–"],
    ["shop", "1.4 1 fault", "1.3 ✓ no faults", "1.3 ✕ refused today, 1 fault"],
    ["stock", "2.0 ✓ no faults", "1.0 ✓ no faults", "1.0 ✓ no faults 1.1 deployed as canary ✕ refused today, 1 fault"],
    ["web", "7 1 fault", "5 ✓ no faults", "5 ✓ no faults 4 released ✓ no faults"],
]
CHANGE = "one of them has to change; then a result that passes is needed."
VERIFY = "verify the contract, and send the result. the contract"
ABSENT = (
    "absent shop 1.4 calls pay, of which no version is in live."
    " To act: the team of pay (blue): deploy a version of it there first."
    " Promote on the page, or holzhebo plan FROM TO, says which may go. the contract"
)
FAILED = (
    "failed stock 1.0 fails the contract of shop 1.4, by its latest result. To act: the team of shop (red) and the"
    " team of stock (blue): one of them has to change; then a result that passes is needed. the contract"
)
MISSING = f"missing shop 1.4 has no result for the contract of web 4. To act: the team of shop (red): {VERIFY}"
CLAIMED = (
    "claimed shop 1.4 only claims to keep the contract of web 5, and live wants it checked."
    " To act: the team of shop (red): send the replies that were recorded. the contract"
)
OPEN = f"missing shop 1.4 has no result for the contract of web 7. To act: the team of shop (red): {VERIFY}"
UNVERIFIED = f"missing stock 2.0 has no result for the contract of shop 1.3. To act: the team of stock (blue): {VERIFY}"
NOBODY, NONE = "nobody there calls it", "it calls nobody"
# What is asked: the verdict, the sentence below it, the reasons, and of the drawing the callers and the called.
ASKED = {
    "shop/1.4/live": (
        "✕ shop 1.4 may not go to live.",
        "For 4 reasons:",
        [ABSENT, FAILED, MISSING, CLAIMED],
        ["web 4 ? no result", "web 5 ! only claimed"],
        ["– not there pay", "✕ failed stock 1.0", "✓ checked stock 1.1"],
    ),
    "shop/1.4/staging": (
        "✕ shop 1.4 may not go to staging.",
        "For 1 reason:",
        [FAILED],
        ["web 5 ✓ claimed"],
        ["✕ failed stock 1.0", "✓ claimed pay 7"],
    ),
    "web/6/live": (
        "✓ web 6 may go to live.",
        "Each contract between it and what is in live has a result that counts there.",
        [],
        [NOBODY],
        ["✓ checked shop 1.3"],
    ),
    "web/7/dev": (
        "✓ web 7 may go to dev.",
        "dev is open, so it takes it; a gated environment would refuse it for 1 reason:",
        [OPEN],
        [NOBODY],
        ["? no result shop 1.4"],
    ),
    "stock/2.0/staging": (
        "✕ stock 2.0 may not go to staging.",
        "For 1 reason:",
        [UNVERIFIED],
        ["shop 1.3 ? no result"],
        [NONE],
    ),
    "pay/7/live": (
        "✓ pay 7 may go to live.",
        "Each contract between it and what is in live has a result that counts there.",
        [],
        [NOBODY],
        [NONE],
    ),
}
MATRIX = [
    ["consumer", "pay 7", "stock 1.0", "stock 1.1", "stock 2.0", "shop 1.4"],
    [
        "shop 1.4", "✓ pass, claimed no. 5", "✕ fail, claimed no. 6", "✓ pass, checked no. 7", "✓ pass, claimed no. 8",
        "",
    ],
    ["web 5 in staging, live and 1 other with the same contract", "", "", "", "", "✓ pass, claimed no. 9"],
]
STOCK = [
    ["consumer", "stock 1.0"],
    ["shop 1.3", "✓ pass, checked no. 1"],
    ["shop 1.4", "✕ fail, claimed no. 6"],
]
UNRESULTED = [["consumer", "shop"], ["web 7", "? no result"]]
LIVE = [
    ["service", "version", "how", "team", "today"],
    ["shop", "1.3", "deployed", "red", "ask the gate"],
    ["stock", "1.0", "deployed", "blue", "ask the gate"],
    ["stock", "1.1", "deployed as canary", "blue", "ask the gate"],
    ["web", "5", "deployed", "red", "ask the gate"],
    ["web", "4", "released", "red", "ask the gate"],
]
# Of a release: the verdict, what isn't in an order, who has to act, the order, and what stays.
Promoted = tuple[str, list[str], list[str], list[str], str]
PROMOTED: dict[str, Promoted] = {
    "dev/staging": (
        "✕ 0 of 3 may go: 0 now, 0 after others; 3 not with them.",
        ["shop 1.4 for 1.3 ↻ not before stock 2.0", "stock 2.0 for 1.0 ↻ not before shop 1.4", "web 7 for 5"],
        [
            f"blue {CHANGE} failed ↻ shop 1.4 calls stock 1.0 contract"
            " verify the contract, and send the result. missing ↻ shop 1.3 calls stock 2.0 contract",
            "red verify the contract, and send the result. missing web 7 calls shop 1.4 contract"
            f" {CHANGE} failed ↻ shop 1.4 calls stock 1.0 contract",
        ],
        [],
        "",
    ),
    "staging/live": (
        "✓ 1 of 1 may go: 1 now, 0 after others.",
        [],
        [],
        ["pay 7 new there ✓ now"],
        "Only live has stock 1.1 (as canary), web 4 (released): this stays there, and is counted.",
    ),
    "staging/dev": (
        "✓ dev is open: it takes each of 3.",
        [],
        [],
        ["shop 1.3 for 1.4 ✓ now", "stock 1.0 for 2.0 ✓ now", "web 5 for 7 ✓ now"],
        "",
    ),
    "live/live": ("✓ All of it is in live already.", [], [], [], ""),
    "live/staging": (
        "✕ 1 of 2 may go: 1 now, 0 after others; 1 not with them.",
        ["stock 1.1 as canary new there"],
        [f"{team} {CHANGE} failed shop 1.3 calls stock 1.1 contract" for team in ("blue", "red")],
        ["web 4 as a release new there ✓ now"],
        "Only staging has pay 7 (it goes): this stays there, and is counted.",
    ),
    "live/staging/pay": (
        "✕ 2 of 3 may go: 2 now, 0 after others; 1 not with them.",
        ["stock 1.1 as canary new there"],
        [f"{team} {CHANGE} failed shop 1.3 calls stock 1.1 contract" for team in ("blue", "red")],
        ["web 4 as a release new there ✓ now", "pay 7 goes (it stays) ✓ now"],
        "",
    ),
}
# What is to go of yard, which has what garden has, and pay, which one of these calls.
CALLED: Promoted = (
    "✕ 0 of 1 may go: 0 now, 0 after others; 1 not with them.",
    ["pay 7 goes (it stays)"],
    ["red another version of it has to do without what is to go. is to go shop 1.4 calls pay contract"],
    [],
    "",
)
# The contract of shop 1.4 with stock, by examples/demo.sh, and what changed in it since shop 1.3.
READ = [
    "1. a book with its price",
    "Request",
    "GET /a-book-with-its-price",
    "Response",
    "status 200",
    "Content-Type: application/json",
    '{ "title": "Emma" }',
    "body $.title is of the same type",
]
RESULTS = [
    "✓ pass stock 2.0, claimed, no. 8",
    "✓ pass stock 1.1, checked, no. 7",
    "✕ fail stock 1.0, claimed, no. 6",
]
CHANGED = (
    ['"description": "a book",', '"path": "/a-book"'],
    ['"description": "a book with its price",', '"path": "/a-book-with-its-price"'],
)
STRICT = "live strict takes a version only if its providers are here, and the broker checked that each contract passes."
OLDER = "live|shop|1.3|stock\nlive|web|4|shop\nlive|web|5|shop\nstaging|shop|1.3|stock\nstaging|web|5|shop\n"
MARKUP, TURNED, SLASH, LONG = "<img src=x onerror=alert(1)>", "pay\u202egnp", "a/b", "n" * 100

BUILDS = "https://ci.example.org/b/{pacticipant}/{version}"
WHO = [
    {
        "change": "deployments",
        "instance": "",
        "pacticipant": "shop",
        "team": "blue",
        "time": "2026-11-01T08:00:00+00:00",
        "version": "1.3",
    },
    {
        "change": "deployments",
        "instance": "",
        "pacticipant": "shop",
        "team": "red",
        "time": "2026-11-02T08:00:00+00:00",
        "version": "1.3",
    },
    {
        "change": "undeployments",
        "instance": "",
        "pacticipant": "stock",
        "team": "red",
        "time": "2026-11-02T09:00:00+00:00",
        "version": "1.0",
    },
    {
        "change": "deployments",
        "instance": "canary",
        "pacticipant": "stock",
        "team": "<b>",
        "time": "2026-11-03T08:00:00+00:00",
        "version": "1.1",
    },
]
WITH_WHO = [
    ["service", "dev open", "nowhere unknown", "live strict"],
    ["pay", "7", "", "–"],
    ["shop", "1.4", "", "1.3 2026-11-02 by red"],
    ["stock", "2.0", "", "1.0 1.1 deployed as canary 2026-11-03 by <b>"],
    ["web", "7", "", "5 4 released"],
]
TICKET = [
    "Can it go?",
    "✕ shop 1.4 may not go to staging.",
    "1. failed stock 1.0 fails the contract of shop 1.4, by its latest result.",
    f"To act: the team of shop (red) and the team of stock (blue): {CHANGE} the contract",
]
WITHOUT = "No answer came: the network or the proxy is down."
FOREIGN = "What came isn’t an answer of the broker, so nothing of it is shown."
ODD = (
    '{"answer":"shown","environment":"live","faults":[{"consumer":"web","consumerVersion":"5","kind":"odd",'
    '"provider":"shop","providerVersion":"1.3"}],"gated":true,"permitted":false}'
)
# In the broker's place: a name, the status, the body, and the sentence.
INSTEAD = [
    ("not JSON", 200, "<h1>It works!</h1>", FOREIGN),
    ("cut", 200, '{"answer":"shown","environment":"live","fau', FOREIGN),
    ("another shape", 200, '{"answer":"shown","faults":{},"permitted":true}', FOREIGN),
    ("another kind of fault", 200, ODD, "The answer has a kind of fault that this page doesn’t know."),
    (
        "no route",
        404,
        '{"answer":"no route"}',
        "The broker has no such route: this page isn’t for what is at this address.",
    ),
    ("500", 500, '{"answer":"store"}', "The broker failed: it answers 500 store."),
    ("a page of 500", 500, "<h1>Oh</h1>", "The proxy answers 500, and not the broker."),
    ("503", 503, '{"answer":"memory"}', "The broker failed: it answers 503 memory."),
]

# What is in live once the lines of docs/DESK.md are run
AFTER = {
    "deployed": [
        ("mail", "1", ""),
        ("shop", "1.3", ""),
        ("stock", "1.0", ""),
        ("stock", "1.1", "canary"),
        ("web", "5", ""),
    ],
    "released": [("web", "4", "")],
}
