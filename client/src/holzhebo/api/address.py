"""Addresses of HTTP, and the way to them."""
import base64, contextlib, functools, os, re, ssl, urllib.parse
from typing import Dict, NamedTuple, Optional

from holzhebo.faults import Stop
from holzhebo.text import reason, short, shown

LOOPBACK = re.compile(r"localhost|127(\.[0-9]{1,3}){3}|::1")


class Address:
    """An address of HTTP, without a user."""

    def __init__(self, text: str) -> None:
        found = re.fullmatch(r"(?i)https?://([\w.-]+|\[[0-9a-fA-F:.]+\])(?::([0-9]{1,5}))?([/?].*)?", text)
        if not found or int(found[2] or 80) not in range(1, 65536):
            raise Stop(f"{'this' if '@' in text else short(text)} is no address, as https://broker.example.org")
        parts = urllib.parse.urlsplit(text)
        self.is_https, self.host = parts.scheme == "https", parts.hostname or ""
        self.port = parts.port or (443 if self.is_https else 80)
        self.path, self.query = in_path(parts.path), in_query(parts.query)
        self.is_loopback = LOOPBACK.fullmatch(self.host) is not None

    def name(self) -> str:
        return named(self.host, self.port)


def in_path(text: str) -> str:
    """A path as a request has it: other letters are written as escapes, and escapes stay."""
    return urllib.parse.quote(text, safe="/%:@!$&'()*+,;=~-._", errors="surrogateescape")


def in_query(text: str) -> str:
    return urllib.parse.quote(text, safe="/%:@!$&'()*+,;=~-._?[]", errors="surrogateescape")


def named(host: str, port: int) -> str:
    return f"[{host}]:{port}" if ":" in host else f"{host}:{port}"


class Proxy(NamedTuple):
    """A proxy: where it is, and the fields by which it knows who asks."""

    host: str
    port: int
    fields: Dict[str, str]


def proxy_at(text: str) -> Proxy:
    """The proxy that a text names, as curl reads it: perhaps without http://, and with a user, who is shown nowhere."""
    with contextlib.suppress(ValueError):
        it = urllib.parse.urlsplit(text if "//" in text else f"http://{text}")
        if it.hostname and "@" not in it.path + it.query + it.fragment:
            user = ":".join(urllib.parse.unquote(part or "") for part in (it.username, it.password))
            fields = {"Proxy-Authorization": f"Basic {base64.b64encode(user.encode()).decode()}"}
            return Proxy(it.hostname, it.port or 8080, fields if it.username else {})
    raise Stop("the proxy that the environment names is no address, as http://proxy.example.org:8080")


class Way(NamedTuple):
    """How an address is reached: the file of certificates that are trusted beside the system's, and the proxy
    between."""

    cacert: Optional[str] = None
    proxy: Optional[str] = None

    def between(self) -> Optional[Proxy]:
        return proxy_at(self.proxy) if self.proxy else None

    @functools.lru_cache(maxsize=None)
    def context(self) -> ssl.SSLContext:
        """What is trusted, which is read once for all connections."""
        try:
            found = ssl.create_default_context()
            if self.cacert:
                found.load_verify_locations(self.cacert)
            return found
        except OSError as why:
            raise Stop(f"{shown(self.cacert)} can't be used: {reason(why)}") from None


def proxy_of(address: Address) -> Optional[str]:
    """The proxy that the environment names for an address: HTTPS_PROXY or HTTP_PROXY, unless NO_PROXY has its host. An
    address of this machine has none."""
    kind = "https" if address.is_https else "http"
    found = os.environ.get(f"{kind}_proxy") or os.environ.get(f"{kind.upper()}_PROXY")
    if not found or address.is_loopback:
        return None
    left_out = os.environ.get("no_proxy") or os.environ.get("NO_PROXY") or ""
    for it in (name.strip().lower().lstrip(".") for name in left_out.split(",")):
        if it == "*" or it and (address.host.lower() == it or address.host.lower().endswith(f".{it}")):
            return None
    return found
