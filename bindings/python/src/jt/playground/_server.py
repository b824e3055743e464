"""The server of the page: it listens on the loopback address alone, and each request has its token.

A page of another origin can neither read an answer nor cause work: the names of the host and of the
origin are checked as well as the token.
"""
import hmac
import json
import secrets
import threading
from http.server import BaseHTTPRequestHandler, ThreadingHTTPServer
from pathlib import Path
from typing import Any, Dict, Optional
from urllib.parse import parse_qs, urlsplit

from ._trying import Asked, Json, Misuse, try_out

HOST = "127.0.0.1"
# The bytes of a request: those of the sources and the context, as JSON spells them at worst.
_MOST_BYTES = 13_000_000
# The requests that are worked on at a time, and the seconds for which another one waits.
_AT_ONCE, _PATIENCE = 2, 20
# The seconds for which a connection may be idle.
_IDLE = 20
_PAGE = Path(__file__).with_name("page.html")


class Playground(ThreadingHTTPServer):
    """A server of the page, with what the page shows at first."""

    daemon_threads = True
    # (Another process of this machine cannot take the port over.)
    allow_reuse_address = False

    def __init__(self, state: Json, port: int = 0) -> None:
        super().__init__((HOST, port), Handler)
        self.state = state
        self.token = secrets.token_urlsafe(32)
        self.turns = threading.BoundedSemaphore(_AT_ONCE)

    @property
    def address(self) -> str:
        """The address of the page, with its token."""
        return f"http://{HOST}:{self.server_port}/?token={self.token}"

    def is_here(self, host: Optional[str]) -> bool:
        """Returns whether a request names this server as its host."""
        return host in (f"{HOST}:{self.server_port}", f"localhost:{self.server_port}")


class Handler(BaseHTTPRequestHandler):
    """Answers one connection."""

    server: Playground
    timeout = _IDLE
    server_version = "jt"
    sys_version = ""

    def do_GET(self) -> None:
        """Answers with the page."""
        parts = urlsplit(self.path)
        token = parse_qs(parts.query).get("token", [""])[0]
        if not self._is_allowed(token):
            return
        if parts.path != "/":
            self._send(404, b"no such page\n", "text/plain; charset=utf-8")
            return
        nonce = secrets.token_urlsafe(16)
        page = _PAGE.read_text(encoding="utf-8").replace("NONCE", nonce)
        policy = (
            f"default-src 'none'; script-src 'nonce-{nonce}'; style-src 'unsafe-inline'; "
            "img-src data:; connect-src 'self'; frame-src 'self'; base-uri 'none'; "
            "form-action 'none'; frame-ancestors 'none'"
        )
        headers = {"Content-Security-Policy": policy}
        self._send(200, page.encode(), "text/html; charset=utf-8", headers)

    def do_POST(self) -> None:
        """Answers with what the page shows at first, or with what it asks to try."""
        if not self._is_allowed(self.headers.get("X-Jt-Token", "")):
            return
        length = self.headers.get("Content-Length", "")
        if not length.isdigit():
            self._misuse(411, "a request without a length")
        elif int(length) > _MOST_BYTES:
            self._misuse(413, "the request is too long")
        elif self.path == "/state":
            self._json(200, self.server.state)
        elif self.path == "/try":
            self._try(self.rfile.read(int(length)))
        else:
            self._misuse(404, "no such request")

    def _try(self, data: bytes) -> None:
        """Answers with what the page asks to try."""
        try:
            asked = Asked(json.loads(data.decode()))
        except Misuse as error:
            self._misuse(413 if "bytes" in str(error) else 400, str(error))
            return
        except (ValueError, RecursionError):
            self._misuse(400, "the request is no JSON")
            return
        if not self.server.turns.acquire(timeout=_PATIENCE):
            self._misuse(503, "the server is at work for other requests")
            return
        try:
            answer = try_out(asked)
        finally:
            self.server.turns.release()
        self._json(200, answer)

    def _is_allowed(self, token: str) -> bool:
        """Returns whether a request comes from the page of this server, or refuses it."""
        origin, site = self.headers.get("Origin"), self.headers.get("Sec-Fetch-Site")
        is_own = (
            self.server.is_here(self.headers.get("Host"))
            and (origin is None or self.server.is_here(origin.partition("://")[2]))
            and site in (None, "same-origin", "none")
        )
        wanted = self.server.token.encode()
        if is_own and hmac.compare_digest(token.encode("utf-8", "replace"), wanted):
            return True
        self._send(403, b"the address of the page has a token\n", "text/plain; charset=utf-8")
        return False

    def _misuse(self, status: int, said: str) -> None:
        self._json(status, {"status": "misuse", "said": said, "marks": []})

    def _json(self, status: int, answer: Json) -> None:
        text = json.dumps(answer, ensure_ascii=False)
        self._send(status, text.encode("utf-8", "replace"), "application/json")

    def _send(
        self, status: int, data: bytes, kind: str, more: Optional[Dict[str, str]] = None
    ) -> None:
        """Sends an answer, which nothing keeps and no other page may show."""
        self.close_connection = True
        self.send_response(status)
        headers = {
            "Content-Type": kind, "Content-Length": str(len(data)), "Connection": "close",
            "Cache-Control": "no-store", "Referrer-Policy": "no-referrer",
            "X-Content-Type-Options": "nosniff", "X-Frame-Options": "DENY",
            "Cross-Origin-Resource-Policy": "same-origin",
            "Cross-Origin-Opener-Policy": "same-origin",
        }  # fmt: skip
        for name, value in {**headers, **(more or {})}.items():
            self.send_header(name, value)
        self.end_headers()
        self.wfile.write(data)

    def log_message(self, format: str, *args: Any) -> None:
        """Prints nothing: an address has the token."""
