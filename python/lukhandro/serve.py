"""The sheet in a browser: a server for this machine and this user alone, over one model.

The address that it prints has a token in it; every request must have the token, come to this address and, where the browser
says from which page it comes, come from the sheet's own. Nothing is fetched from outside the machine.
"""
from __future__ import annotations

import hmac
import json
import secrets
import socket
import sys
import time
import webbrowser
from http.server import BaseHTTPRequestHandler, ThreadingHTTPServer
from pathlib import Path
from typing import Any
from urllib.parse import parse_qsl, unquote, urlsplit

from .answers import Answers, Wrong
from .files import Usage
from .sheet import Sheet

LONGEST_BODY = 262144
LOOKING = {"sheet", "state", "why", "around"}
STORING = {"try", "keep", "back", "save"}
PAGE = Path(__file__).parent / "page"
PARTS = {"": ("index.html", "text/html; charset=utf-8"), "style.css": ("style.css", "text/css; charset=utf-8"),
         "sheet.js": ("sheet.js", "text/javascript; charset=utf-8")}
HEADERS = {
    "Cache-Control": "no-store",
    "Content-Security-Policy": "default-src 'none'; script-src 'self'; style-src 'self'; connect-src 'self'; img-src data:;"
                               " base-uri 'none'; form-action 'none'; frame-ancestors 'none'",
    "Cross-Origin-Opener-Policy": "same-origin",
    "Cross-Origin-Resource-Policy": "same-origin",
    "Referrer-Policy": "no-referrer",
    "X-Content-Type-Options": "nosniff",
}


class Server(ThreadingHTTPServer):
    """Bound to 127.0.0.1; a thread for each connection, and many may wait at once."""

    daemon_threads = True
    request_queue_size = 1024

    def __init__(self, answers: Answers, port: int = 0) -> None:
        self.answers, self.token = answers, secrets.token_urlsafe(24)
        try:
            super().__init__(("127.0.0.1", port), Handler)
        except OSError as error:
            raise Usage(f"cannot listen on port {port}: {(error.strerror or str(error)).lower()}; another port is chosen by --port") from None
        self.hosts = {f"127.0.0.1:{self.server_port}", f"localhost:{self.server_port}"}

    @property
    def address(self) -> str:
        """Where the sheet is, with the token."""
        return f"http://127.0.0.1:{self.server_port}/{self.token}/"

    def handle_error(self, request: Any, client_address: Any) -> None:
        """A connection that breaks off is the browser's business; anything else is said in one line."""
        error = sys.exc_info()[1]
        if not isinstance(error, (ConnectionError, TimeoutError)):
            print(f"lukhandro: a request failed: {error!r}", file=sys.stderr)


class Handler(BaseHTTPRequestHandler):
    """Judges a request and hands it on."""

    server: Server
    protocol_version = "HTTP/1.1"
    server_version, sys_version = "lukhandro", ""
    timeout = 30

    def do_GET(self) -> None:
        """The page, its parts, and what only looks."""
        self._answer(self._look)

    def do_POST(self) -> None:
        """What tries a move or stores one."""
        self._answer(self._store)

    def _answer(self, work: Any) -> None:
        try:
            status, kind, body = work()
        except Wrong as wrong:
            status, kind, body = wrong.status, "application/json", json.dumps(wrong.answer()).encode()
        self._send(status, kind, body)

    # ── judging ──
    def _asked(self) -> str:
        """What is asked behind the token, once the request is judged."""
        if self.headers.get("Host") not in self.server.hosts:
            raise self._stop("this address is not the sheet's", 403)
        origin = self.headers.get("Origin")
        if origin is not None and origin not in {f"http://{host}" for host in self.server.hosts}:
            raise self._stop("another page may not use the sheet", 403)
        if self.headers.get("Sec-Fetch-Site", "none") not in ("same-origin", "none"):
            raise self._stop("another page may not use the sheet", 403)
        token, slash, asked = urlsplit(self.path).path[1:].partition("/")
        if not slash or not hmac.compare_digest(unquote(token).encode(), self.server.token.encode()):
            raise self._stop("the address lacks the token that the sheet was started with, or has another one", 403)
        return asked

    def _stop(self, sentence: str, status: int) -> Wrong:
        """A request that is not looked at any further: what it still sends is passed over, and the connection ends."""
        self.close_connection = True
        return Wrong(sentence, status=status)

    def _look(self) -> tuple[int, str, bytes]:
        asked = self._asked()
        if asked in PARTS:
            name, kind = PARTS[asked]
            return 200, kind, (PAGE / name).read_bytes()
        what = asked.removeprefix("api/")
        if asked == what or what not in LOOKING:
            raise Wrong("there is nothing at this address", status=404)
        return self._json(self.server.answers.answer(what, dict(parse_qsl(urlsplit(self.path).query))))

    def _store(self) -> tuple[int, str, bytes]:
        asked = self._asked()
        what = asked.removeprefix("api/")
        if asked == what or what not in STORING:
            raise self._stop("there is nothing at this address", 404)
        if self.headers.get("Origin") is None:
            raise self._stop("a request that changes something says from which page it comes", 403)
        return self._json(self.server.answers.answer(what, self._body()))

    def _body(self) -> dict[str, Any]:
        """What a request sends: an object in JSON, of bounded size."""
        length = self.headers.get("Content-Length", "")
        if not length.isascii() or not length.isdigit():
            raise self._stop("a request says how long it is", 411)
        if int(length) > LONGEST_BODY:
            raise self._stop(f"a request has at most {LONGEST_BODY:,} bytes", 413)
        body = self.rfile.read(int(length))
        try:
            asked = json.loads(body)
        except (ValueError, RecursionError):
            raise Wrong("the request is no JSON", status=400) from None
        if not isinstance(asked, dict):
            raise Wrong("a request is an object in JSON", status=400)
        return asked

    # ── answering ──
    def _json(self, said: dict[str, Any]) -> tuple[int, str, bytes]:
        return 200, "application/json", json.dumps(said, ensure_ascii=False).encode()

    def _send(self, status: int, kind: str, body: bytes) -> None:
        self.send_response(status)
        self.send_header("Content-Type", kind)
        self.send_header("Content-Length", str(len(body)))
        for name, value in HEADERS.items():
            self.send_header(name, value)
        if self.close_connection:
            self.send_header("Connection", "close")
        self.end_headers()
        if self.command != "HEAD":
            self.wfile.write(body)
        if self.close_connection and self.command == "POST":
            self._pass_over()

    def _pass_over(self) -> None:
        """Reads what the other side still sends, for at most five seconds: else it would not see the answer."""
        self.wfile.flush()
        try:
            self.connection.shutdown(socket.SHUT_WR)
            self.connection.settimeout(1)
            end = time.monotonic() + 5
            while time.monotonic() < end and self.connection.recv(1 << 20):
                pass
        except OSError:
            pass

    def send_error(self, code: int, message: str | None = None, explain: str | None = None) -> None:
        """What the protocol itself refuses, as JSON like every other answer."""
        self.close_connection = True
        sentence = {400: "this is no request of the protocol", 414: "the address is too long", 431: "the headers are too long",
                    501: "a request is GET or POST"}.get(code, message or "this is no request of the protocol")
        self._send(code, "application/json", json.dumps(Wrong(sentence).answer()).encode())

    def log_message(self, format: str, *args: Any) -> None:
        """Requests are not printed: the token is in them."""


def serve(path: str, port: int = 0, opens: bool = False, names_from: str | None = None) -> None:
    """Serves the sheet of a file until it is interrupted."""
    sheet = Sheet.open(path, names_from)
    with Server(Answers(sheet, path), port) as server:
        print(f"The sheet of {sheet.source} is at {server.address}", flush=True)
        print("It is for this machine and for who knows the address; Ctrl+C ends it.", flush=True)
        if opens:
            webbrowser.open(server.address)
        try:
            server.serve_forever()
        except KeyboardInterrupt:
            print()
        if server.answers.unsaved:
            print("lukhandro: kept moves were not saved", file=sys.stderr)
