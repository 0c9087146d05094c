"""What the tests find in a broker: two teams with their tokens, a service of each, environments, contracts."""
from tests.process import Server, ran
from tests.wire import OFFICE, Caller, same

RED, BLUE = "red-team-token-01", "blue-team-token-1"
DONE, ALREADY = '{"answer":"done"}', '{"answer":"already"}'


def new_file(program: str, room: str, name: str = "broker.db", token: str = OFFICE) -> str:
    """The file of a new broker, in this folder."""
    file = f"{room}/{name}"
    same("init", ran([program, "init", "--file", file, "--office-token", token]), (0, "", ""))
    return file


def folded(program: str, file: str) -> None:
    """Serves one connection, so that all rows are in the file and none in its log."""
    with Server(program, file, 1) as server:
        server.send()
        same("the end", server.wait(), (0, "", ""))


def pact(description: str) -> str:
    """A pact file of shop with stock, of one interaction."""
    return (
        '{"consumer":{"name":"shop"},"provider":{"name":"stock"},"interactions":[{"description":"%s",'
        '"request":{"method":"GET","path":"/"},"response":{"status":200}}]}' % description
    )


def fault(version: str, kind: str, provider: str = '"1"') -> str:
    """A fault of the gate, as an answer has it: of this version of shop and this one of stock, which is JSON."""
    sides = '"consumer":"shop","consumerVersion":"%s","kind":"%s","provider":"stock","providerVersion":%s'
    return "{" + sides % (version, kind, provider) + "}"


def register(server: Caller) -> None:
    """Two teams, each with a pacticipant, and three environments in which both may deploy."""
    for team, token, pacticipant in ("red", RED, "shop"), ("blue", BLUE, "stock"):
        server.do("PUT", f"/teams/{team}", OFFICE, '{"token":"%s"}' % token)
        server.do("PUT", f"/pacticipants/{pacticipant}", OFFICE, '{"team":"%s"}' % team)
    marked = {"open": '"gated":false', "live": '"gated":true', "vault": '"gated":true,"strict":true'}
    for environment, marks in marked.items():
        server.do("PUT", f"/environments/{environment}", OFFICE, "{%s}" % marks)
        for team in "red", "blue":
            server.do("PUT", f"/grants/team/{team}/environment/{environment}", OFFICE)


def verify(server: Caller) -> None:
    """Stock 1 is deployed everywhere. It claims a result for shop 1, has none for shop 2, and its replies pass for
    shop 3."""
    path = "/pacts/provider/stock/consumer/shop/version"
    server.do("PUT", "/pacticipants/stock/versions/1", BLUE)
    for environment in "open", "live", "vault":
        server.do("POST", f"/environments/{environment}/deployments", BLUE, '{"pacticipant":"stock","version":"1"}')
    for version, description in ("1", "a book"), ("2", "a cup"), ("3", "a pen"):
        server.do("PUT", f"{path}/{version}", RED, pact(description))
    server.do("POST", f"{path}/1/results", BLUE, '{"providerApplicationVersion":"1","success":true}')
    replies = '{"providerApplicationVersion":"1","replies":[{"description":"a pen","response":{"status":200}}]}'
    server.do("POST", f"{path}/3/replies", BLUE, replies)


def fleet_file(program: str, room: str, name: str = "broker.db") -> str:
    """The file of a broker that was asked for all of these, and is served no longer."""
    with Server(program, new_file(program, room, name)) as server:
        register(server)
        verify(server)
        return server.file


def served(program: str, room: str) -> Server:
    """A new broker, which isn't started yet, with its file in this folder."""
    return Server(program, new_file(program, room))
