"""The web side of `desk open`: which requests are answered, and how.

A request is answered where it comes to this machine by its number or as localhost, from the page itself, with the token in its
address, for a name that stands in a table. No part of a request is ever a path of a file.
"""
from __future__ import annotations

import hmac
import json
import socket
import time
from collections.abc import Callable, Sequence
from contextlib import suppress
from http import HTTPStatus
from http.server import BaseHTTPRequestHandler, ThreadingHTTPServer
from typing import Any

from desk.errors import DeskError, UsageError, one_line
from desk.open.session import Session
from desk.page import STATIC
from desk.page.view import as_text
from desk.texts import Json

KINDS = {".html": "text/html; charset=utf-8", ".css": "text/css; charset=utf-8", ".js": "text/javascript; charset=utf-8"}
JSON_KIND = "application/json"
MOST_BODY = 65_536
"""The most bytes of the body of a request."""

MOST_LINES, MOST_SECONDS, PAUSE = 64, 30, 0.1
"""How many lines are waited for, how many seconds for each, and for how many nothing is tried where no line can be had."""

POLICY = ("default-src 'none'; script-src 'self'; style-src 'self'; img-src data:; connect-src 'self'; "
          "base-uri 'none'; form-action 'none'; frame-ancestors 'none'")
HEADERS = {
    "Content-Security-Policy": POLICY, "Cache-Control": "no-store", "Referrer-Policy": "no-referrer",
    "X-Content-Type-Options": "nosniff", "X-Frame-Options": "DENY", "Cross-Origin-Resource-Policy": "same-origin",
    "Cross-Origin-Opener-Policy": "same-origin"}


class Refusal(Exception):
    """A request that is not answered, with its status."""

    def __init__(self, status: HTTPStatus, why: str) -> None:
        super().__init__(why)
        self.status = status


class WebServer(ThreadingHTTPServer):
    """The server of a session, or of one for each day type, on 127.0.0.1, with its token and the page's own files.

    `session` is the first of them. `waiting` has the lines whose request has not come whole, each with the second since which it is
    waited for.
    """

    daemon_threads = True
    request_queue_size = 64

    def __init__(self, sessions: Session | list[Session], token: str, port: int = 0) -> None:
        self.sessions = sessions if isinstance(sessions, list) else [sessions]
        self.session = self.sessions[0]
        self.token = token
        # The page of a day type stands below its number, and all that it asks for beside it.
        self.visits = [f"{number}/" for number in range(len(sessions))] if isinstance(sessions, list) else [""]
        self.waiting: dict[socket.socket, float] = {}
        files = {path.name: (KINDS[path.suffix], path.read_bytes()) for path in STATIC.iterdir() if path.suffix in KINDS}
        files[""] = files["index.html"]
        self.pages = {visit + name: file for visit in self.visits for name, file in files.items()}
        self.asked: dict[str, Callable[[], Json]] = {}
        self.told: dict[str, Callable[[Json], Json]] = {}
        for visit, session in zip(self.visits, self.sessions):
            self.asked |= {visit + "day": session.day, visit + "state": session.state}
            self.told |= {visit + "edit": session.edit, visit + "proof": session.proof, visit + "suggest": session.suggest,
                          visit + "keep": session.keep, visit + "export": session.export, visit + "wish": session.wish,
                          visit + "take_wish": session.take_wish, visit + "cost": session.cost}
        super().__init__(("127.0.0.1", port), Handler)

    def get_request(self) -> tuple[socket.socket, Any]:
        """The next line. Where there are too many, or none can be had, the one that is waited for longest is given up."""
        try:
            line, address = super().get_request()
        except OSError:
            if not self.give_up_oldest():
                time.sleep(PAUSE)
            raise
        if len(self.waiting) >= MOST_LINES:
            self.give_up_oldest()
        self.waiting[line] = time.monotonic()
        return line, address

    def service_actions(self) -> None:
        """Gives up each line whose request has not come whole in time."""
        for line, since in list(self.waiting.items()):
            if time.monotonic() - since > MOST_SECONDS:
                self.give_up(line)

    def give_up_oldest(self) -> bool:
        """Gives up the line that is waited for longest, and says whether there is one."""
        oldest = next(iter(list(self.waiting)), None)
        if oldest is not None:
            self.give_up(oldest)
        return oldest is not None

    def give_up(self, line: socket.socket) -> None:
        """Waits no longer for the request of a line, whose handler then ends."""
        self.waiting.pop(line, None)
        with suppress(OSError):
            line.shutdown(socket.SHUT_RDWR)

    def shutdown_request(self, request: socket.socket) -> None:  # type: ignore[override]
        """Closes a line."""
        self.waiting.pop(request, None)
        super().shutdown_request(request)

    def handle_error(self, *unused: object) -> None:
        """A line that breaks off is nobody's mistake, and nothing is put of it."""

    @property
    def hosts(self) -> tuple[str, ...]:
        """The names by which this server may be asked."""
        return f"127.0.0.1:{self.server_port}", f"localhost:{self.server_port}"

    @property
    def address(self) -> str:
        """The address of the page."""
        return f"http://{self.hosts[0]}/{self.token}/{self.visits[0]}"


class Handler(BaseHTTPRequestHandler):
    """A request."""

    server: WebServer
    timeout = MOST_SECONDS
    server_version = "desk"
    sys_version = ""

    def do_GET(self) -> None:
        """Answers with a file of the page, or what is asked of the session."""
        self._answer(self._get)

    def do_POST(self) -> None:
        """Answers to requests on the session."""
        self._answer(self._post)

    def _answer(self, found: Callable[[], tuple[str, bytes]]) -> None:
        """Puts an answer, or why there is none."""
        status = HTTPStatus.OK
        try:
            self._judge()
            kind, body = found()
        except Refusal as refusal:
            status, kind, body = refusal.status, *_in_words(str(refusal))
        except UsageError as error:
            status, kind, body = HTTPStatus.BAD_REQUEST, *_in_words(str(error))
        except DeskError as error:
            kind, body = _in_words(str(error), error.hints)
        except OSError as error:
            kind, body = _in_words(str(error))
        except Exception as error:  # pylint: disable=broad-except
            kind, body = _in_words(f"this is a mistake of the workbench itself: {type(error).__name__}: {error}")
        self._put(status, kind, body)

    def _judge(self) -> None:
        """Refuses a request that does not come from the page."""
        hosts, origins = self.headers.get_all("Host", []), self.headers.get_all("Origin", [])
        if len(hosts) != 1 or hosts[0] not in self.server.hosts:
            raise Refusal(HTTPStatus.FORBIDDEN, "the request is for another host")
        if any(origin != f"http://{hosts[0]}" for origin in origins) or len(origins) != 1 and self.command == "POST":
            raise Refusal(HTTPStatus.FORBIDDEN, "the request comes from another origin")
        if self.headers.get("Sec-Fetch-Site", "none") not in ("same-origin", "none") and not self._is_visit():
            raise Refusal(HTTPStatus.FORBIDDEN, "the request comes from another site")
        token = self.path.split("/")[1] if self.path.startswith("/") else ""
        if not hmac.compare_digest(token.encode("utf-8", "surrogateescape"), self.server.token.encode()):
            raise Refusal(HTTPStatus.NOT_FOUND, "the address is not the one that `./desk open` has put")

    def _is_visit(self) -> bool:
        """Whether somebody comes to the page itself from elsewhere, as from the file that `--browser` hands over."""
        how = tuple(self.headers.get(f"Sec-Fetch-{name}") for name in ("Mode", "Dest"))
        return self.command == "GET" and self._name in self.server.visits and how == ("navigate", "document")

    @property
    def _name(self) -> str:
        """What is asked for: the address behind the token."""
        return self.path[len(self.server.token) + 2:]

    def _get(self) -> tuple[str, bytes]:
        """A file of the page, or what is asked of the session."""
        self.server.waiting.pop(self.connection, None)
        if self._name in self.server.asked:
            return JSON_KIND, as_text(self.server.asked[self._name]()).encode()
        if self._name not in self.server.pages or not self.path.endswith("/" + self._name):
            raise Refusal(HTTPStatus.NOT_FOUND, "there is nothing of this name")
        return self.server.pages[self._name]

    def _post(self) -> tuple[str, bytes]:
        """Tells the session something."""
        if self._name not in self.server.told:
            raise Refusal(HTTPStatus.NOT_FOUND, "there is nothing of this name")
        return JSON_KIND, as_text(self.server.told[self._name](self._body())).encode()

    def _body(self) -> Json:
        """The body of a request, which is JSON of an object."""
        if self.headers.get_content_type() != JSON_KIND:
            raise Refusal(HTTPStatus.UNSUPPORTED_MEDIA_TYPE, "the body is not JSON")
        length = self.headers.get("Content-Length", "")
        if "Transfer-Encoding" in self.headers or not (length.isascii() and length.isdecimal()):
            raise Refusal(HTTPStatus.LENGTH_REQUIRED, "the length of the body is not told")
        if len(length) > 9 or int(length) > MOST_BODY:
            raise Refusal(HTTPStatus.REQUEST_ENTITY_TOO_LARGE, "the body is too long")
        content = self.rfile.read(int(length))
        self.server.waiting.pop(self.connection, None)
        try:
            body = json.loads(content)
        except (ValueError, RecursionError) as error:
            raise Refusal(HTTPStatus.BAD_REQUEST, "the body is not JSON") from error
        if not isinstance(body, dict):
            raise Refusal(HTTPStatus.BAD_REQUEST, "the body is no object")
        return body

    def _put(self, status: HTTPStatus, kind: str, body: bytes) -> None:
        """Puts an answer."""
        self.send_response(status)
        self.send_header("Content-Type", kind)
        self.send_header("Content-Length", str(len(body)))
        self.end_headers()
        self.wfile.write(body)

    def end_headers(self) -> None:
        """Ends the headers of each answer, those of the library too, with the ones that keep the page to itself."""
        for name, value in HEADERS.items():
            self.send_header(name, value)
        super().end_headers()

    def log_message(self, *unused: object) -> None:
        """Nothing is logged: an address has the token."""


def _in_words(error: str, hints: Sequence[str] = ()) -> tuple[str, bytes]:
    """The answer that says an error, with its hints where it has some."""
    said: Json = {"error": one_line(error)}
    if hints:
        said["hints"] = [one_line(hint) for hint in hints]
    return JSON_KIND, as_text(said).encode()
