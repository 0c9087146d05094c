"""The page for whoever has the key of the address, with the token of a file."""
import hmac, secrets
from typing import Dict, List

from holzhebo.api.address import Address, Way
from holzhebo.desk.server import Answer, Desk, Refused, Request


class Own(Desk):
    """The page's server. The key is made anew; who opens the address with it gets it as a cookie. Browsers send cookies
    to all ports of a host, so its name has the port."""

    def __init__(self, port: int, files: Dict[str, bytes], broker: Address, way: Way, authorization: str) -> None:
        super().__init__(port, files, broker, way)
        self.key, self.authorization = secrets.token_urlsafe(24), authorization
        self.cookie = f"desk-{port}={self.key}"

    def answer(self, request: Request) -> Answer:
        self.permits(request)
        if self.has(request.target, f"/desk/?{self.key}"):
            cookie = f"{self.cookie}; Path=/; HttpOnly; SameSite=Strict"
            return Answer(302, "text/plain; charset=utf-8", b"", [("location", "/desk/"), ("set-cookie", cookie)])
        sent = [part.strip() for it in request.all("cookie") for part in it.split(";")]
        if not any(self.has(it, self.cookie) for it in sent):
            raise Refused(403, "Open the address that `holzhebo desk` has printed: it has a key.")
        return super().answer(request)

    @staticmethod
    def has(text: str, wanted: str) -> bool:
        return hmac.compare_digest(text.encode("latin-1", "replace"), wanted.encode())

    def fields_for(self, request: Request) -> List[str]:
        return [self.authorization]
