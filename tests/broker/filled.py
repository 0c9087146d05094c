"""A broker's file whose tables requests have filled, and what `audit` says of it."""
import os
from tests.broker.parts import Broker, auditing, kept, question, unchanged
from tests.process import Server
from tests.wire import OFFICE, same
from tests.world import BLUE, RED, pact

GREEN = "green-team-token-1"
STOCK = "/pacts/provider/stock/consumer/shop/version"


def fill(server: Server) -> None:
    """What comes after the teams, services and contracts of world.py. Then there are

    teams 1 red, 2 blue, 3 green; pacticipants 1 shop of red, 2 stock of blue, 3 post of green
    versions 1 stock 1, 2 to 4 shop 1 to 3, 5 shop 4 and 6 stock 2 (both on main), 7 post 1, 8 post 2
    contents 1 a book (of shop 1 and 4), 2 a cup, 3 a pen
    results 1 of content 1 by version 1, 2 of 3 by 1 (checked), 3 of 1 by 6 (a failure, run ci-7), 4 of 1 by 6, 5 of 1
        by 1 (run ci-8); of these latest names in its row 1 result 5, in 2 result 2, in 3 result 4
    deployed in its row 2 stock 1 in live, 3 stock 1 in vault, 4 shop 1 in live, 5 stock 2 in live as the instance b
    released in live shop 4"""
    server.do("PUT", "/teams/green", OFFICE, '{"token":"%s"}' % GREEN)
    server.do("PUT", "/pacticipants/post", OFFICE, '{"team":"green"}')
    server.do("PUT", "/grants/team/green/environment/open", OFFICE)
    server.do("PUT", "/pacticipants/shop/versions/4", RED, '{"branch":"main"}')
    server.do("PUT", f"{STOCK}/4", RED, pact("a book"))
    server.do("PUT", "/pacticipants/stock/versions/2", BLUE, '{"branch":"main"}')
    server.do("POST", f"{STOCK}/1/results", BLUE, '{"providerApplicationVersion":"2","success":false,"run":"ci-7"}')
    server.do("POST", f"{STOCK}/1/results", BLUE, '{"providerApplicationVersion":"2","success":true}')
    server.do("POST", f"{STOCK}/4/results", BLUE, '{"providerApplicationVersion":"1","success":true,"run":"ci-8"}')
    for version in "12":
        server.do("PUT", f"/pacticipants/post/versions/{version}", GREEN)
    server.do("POST", "/environments/live/deployments", RED, '{"pacticipant":"shop","version":"1"}')
    second = '{"pacticipant":"stock","version":"2","instance":"b"}'
    server.do("POST", "/environments/live/deployments", BLUE, second)
    server.do("POST", "/environments/live/releases", RED, '{"pacticipant":"shop","version":"4"}')
    server.do("POST", "/environments/open/undeployments", BLUE, '{"pacticipant":"stock","version":"1"}')


def audited(broker: Broker, file: str, line: str = "") -> None:
    """It says this line with status 1, or nothing with status 0; the file and its log stay as they were. The same is
    said again, and can-i-deploy opens the file."""
    folder = os.path.dirname(file)
    before = kept(folder)
    for _ in range(2):
        same("audit", broker(*auditing(file)), (1, f"{line}\n", "") if line else (0, "", ""))
        unchanged(folder, before)
    assert broker(*question(file, "nobodys-token-0001")).errors.startswith('{"answer":"')
