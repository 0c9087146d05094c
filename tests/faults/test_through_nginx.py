"""Many requests at once through nginx, which keeps its connections to the broker or doesn't: each is answered."""
import http.client, threading
import pytest
from tests.process import Server
from tests.proxy import Nginx
from tests.wire import OFFICE, PATIENCE, same

pytestmark = pytest.mark.needs("nginx")
ANSWER = 404, '{"answer":"unknown","what":"environment"}'
BEFORE = "upstream broker {{ server 127.0.0.1:{broker}; {keep} }}\nserver {{ listen 127.0.0.1:{port};\n"
PLACE = "location / {{ proxy_pass http://broker; {header} }} }}"
KEPT = 'proxy_http_version 1.1; proxy_set_header connection "";'


def asked(port: int, count: int, found: list[tuple[int, str]]) -> None:
    """Asks so often on one connection to nginx."""
    line = http.client.HTTPConnection("127.0.0.1", port, timeout=PATIENCE)
    for _ in range(count):
        line.request("GET", "/environments/none", headers={"authorization": f"Bearer {OFFICE}"})
        answer = line.getresponse()
        found.append((answer.status, answer.read().decode()))
    line.close()


@pytest.mark.parametrize("keep, header", [("", ""), ("keepalive 16;", KEPT)], ids=["closed", "kept"])
def test_sixteen_clients_are_answered(server: Server, nginx: Nginx, keep: str, header: str) -> None:
    nginx.start((BEFORE + PLACE).format(broker=server.port, port=nginx.port, keep=keep, header=header))
    found: list[tuple[int, str]] = []
    clients = [threading.Thread(target=asked, args=(nginx.port, 125, found)) for _ in range(16)]
    for it in clients:
        it.start()
    for it in clients:
        it.join()
    same("answers", {it: found.count(it) for it in set(found)}, {ANSWER: 2000})
