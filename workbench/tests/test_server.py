"""The server of `desk open`: whom it answers, and what a session writes."""
from __future__ import annotations

import contextlib
import http.client
import json
import os
import re
import resource
import shutil
import signal
import socket
import stat
import subprocess
import time
import urllib.parse
from pathlib import Path
from typing import Any
from unittest import mock

from desk import program
from desk.day import plan_day
from desk.errors import DeskError, UsageError
from desk.keeping import NOTHING, canonical
from desk.open.session import CHANGED, Session
from desk.open.suggestions import tried
from desk.open.web import HEADERS, MOST_BODY, MOST_LINES
from desk.page import STATIC
from desk.page.view import LISTS, parts_of
from desk.program import ROOT
from desk.rooms import own_room
from desk.town import Town
from tests.feeds import DESK, TOKEN, FolderTest, needs_program, table, write_feed
from tests.small_town import two_trips

RUN = program.run


def whole_of(before: list[Any], parts: list[Any]) -> list[Any]:
    """The list that these parts make."""
    return [element for part in parts for element in (before[part[0]:sum(part)] if isinstance(part, list) else [part])]


class StandIn:
    """A session that says what it was asked."""

    def __init__(self) -> None:
        self.told: list[Any] = []

    def day(self) -> dict[str, Any]:
        return {"day": {"title": "</script>\udcff"}}

    def state(self) -> dict[str, Any]:
        raise DeskError("two\nlines")

    def edit(self, asked: dict[str, Any]) -> dict[str, Any]:
        self.told.append(asked)
        return {"done": True}

    def suggest(self, asked: dict[str, Any]) -> dict[str, Any]:
        raise UsageError("this is no suggestion")

    keep = export = proof = wish = take_wish = cost = edit


class WebTest(FolderTest):
    """Requests of all kinds to a server whose session is a stand-in."""

    def setUp(self) -> None:
        super().setUp()
        self.session = StandIn()
        self.server = self.serve_page(self.session)  # type: ignore[arg-type]
        self.host = f"127.0.0.1:{self.server.server_port}"

    def ask(self, method: str, path: str, headers: dict[str, str] | None = None,
            body: bytes | None = None) -> tuple[int, dict[str, str], bytes]:
        """The status, the headers and the body of an answer."""
        connection = http.client.HTTPConnection("127.0.0.1", self.server.server_port, timeout=30)
        try:
            connection.putrequest(method, path, skip_host=True)
            for name, value in ({"Host": self.host} | (headers or {})).items():
                if value:
                    connection.putheader(name, value)
            connection.endheaders(body)
            answer = connection.getresponse()
            return answer.status, {name.lower(): value for name, value in answer.getheaders()}, answer.read()
        finally:
            connection.close()

    def tell(self, name: str, body: bytes, **headers: str) -> int:
        """The status of an answer to a body, with the headers of the page itself or with these."""
        of_page = {"Origin": f"http://{self.host}", "Content-Type": "application/json", "Content-Length": str(len(body))}
        given = {key.replace("_", "-"): value for key, value in headers.items()}
        return self.ask("POST", f"/{TOKEN}/{name}", of_page | given, body)[0]

    def test_page(self) -> None:
        """The page and all that it names are answered, with headers that keep it to itself."""
        for name in ("", "index.html", "page.css", *(path.name for path in STATIC.glob("*.js"))):
            status, headers, body = self.ask("GET", f"/{TOKEN}/{name}")
            self.assertEqual((status, body), (200, (STATIC / (name or "index.html")).read_bytes()), name)
            policy = headers["content-security-policy"]
            self.assertIn("default-src 'none'; script-src 'self'; style-src 'self'", policy)
            self.assertNotIn("unsafe", policy)
            self.assertIn("frame-ancestors 'none'", policy)
            others = [headers[name] for name in ("cache-control", "referrer-policy", "x-content-type-options")]
            self.assertEqual(others, ["no-store", "no-referrer", "nosniff"])
        self.assertEqual(self.server.server_address[0], "127.0.0.1")

    def test_names_alone(self) -> None:
        """Nothing but the fixed names is answered, whatever way leads to a file."""
        secret = ROOT / "workbench" / "desk" / "open" / "web.py"
        self.assertTrue(secret.is_file())
        for name in ("../web.py", "..%2fweb.py", "%2e%2e/web.py", str(secret), "/" + str(secret), "index.html/", "index.html?x",
                     "index.html#x", "./index.html", "//index.html", "INDEX.HTML", "day/", "edit", "__init__.py", "edits.csv",
                     "page.css%00", "\\..\\web.py", "static/page.css"):
            status, _, body = self.ask("GET", f"/{TOKEN}/{name}")
            self.assertEqual(status, 404, name)
            self.assertNotIn(b"import", body)

    def test_token(self) -> None:
        """Without the token nothing is answered."""
        for path in ("/", "/index.html", "/day", f"/{TOKEN}", f"/{TOKEN}x/", f"/{TOKEN[:-1]}/", f"/x/{TOKEN}/", f"/?{TOKEN}/", "*",
                     f"http://{self.host}/{TOKEN}/", "/%74he-token-of-the-tests/"):
            self.assertEqual(self.ask("GET", path)[0], 404, path)
        self.assertEqual(self.tell("../edit", b"{}"), 404)
        self.assertEqual(self.session.told, [])

    def test_host(self) -> None:
        """A request for another host is refused, as one by a name that leads to this machine."""
        port = self.server.server_port
        for host in ("evil.example", f"evil.example:{port}", "127.0.0.1", "127.0.0.1:1", f"127.0.0.2:{port}",
                     f"{self.host}.evil.example", f"evil.example@{self.host}", "localhost", ""):
            status, _, body = self.ask("GET", f"/{TOKEN}/day", {"Host": host})
            self.assertEqual(status, 403, host)
            self.assertNotIn(b"script", body)
            self.assertEqual(self.tell("edit", b"{}", Host=host), 403, host)
        self.assertEqual(self.ask("GET", f"/{TOKEN}/day", {"Host": f"localhost:{port}"})[0], 200)
        self.assertEqual(self.session.told, [])

    def test_two_hosts(self) -> None:
        """A request that names two hosts is refused."""
        with socket.create_connection(("127.0.0.1", self.server.server_port), timeout=30) as line:
            line.sendall(f"GET /{TOKEN}/day HTTP/1.1\r\nHost: {self.host}\r\nHost: evil.example\r\n\r\n".encode())
            self.assertIn(b" 403 ", line.makefile("rb").readline())

    def test_origin(self) -> None:
        """A request of another origin is refused, and one that tells something has to name its own."""
        for origin in ("http://evil.example", "https://" + self.host, "null", f"http://localhost:{self.server.server_port}",
                       f"http://{self.host}/", "http://127.0.0.1"):
            self.assertEqual(self.tell("edit", b"{}", Origin=origin), 403, origin)
            self.assertEqual(self.ask("GET", f"/{TOKEN}/day", {"Origin": origin})[0], 403, origin)
        self.assertEqual(self.tell("edit", b"{}", Origin=""), 403)
        for site in ("cross-site", "same-site"):
            self.assertEqual(self.tell("edit", b"{}", Sec_Fetch_Site=site), 403)
        self.assertEqual(self.session.told, [])
        self.assertEqual(self.tell("edit", b'{"edit":"undo"}', Sec_Fetch_Site="same-origin"), 200)
        self.assertEqual(self.session.told, [{"edit": "undo"}])

    def test_bodies(self) -> None:
        """A body is JSON of an object, with its length, which is not too long."""
        long = b'{"edit":"' + b"x" * MOST_BODY + b'"}'
        self.assertEqual(self.tell("edit", long), 413)
        self.assertEqual(self.tell("edit", b"{}", Content_Length="99999999999999999999"), 413)
        for length in ("", "-1", "1e3", "0x2", " ", "\xb2"):
            self.assertEqual(self.tell("edit", b"{}", Content_Length=length), 411, length)
        self.assertEqual(self.tell("edit", b"2\r\n{}\r\n0\r\n\r\n", Transfer_Encoding="chunked"), 411)
        for kind in ("", "text/plain", "application/x-www-form-urlencoded", "multipart/form-data"):
            self.assertEqual(self.tell("edit", b"{}", Content_Type=kind), 415, kind)
        for body in (b"", b"{", b"[]", b"7", b'"edit"', b"null", b"[" * 60_000, b"\xff{}"):
            self.assertEqual(self.tell("edit", body), 400, body[:9])
        self.assertEqual(self.session.told, [])
        fits = b'{"edit":"' + b"x" * (MOST_BODY - 11) + b'"}'
        self.assertEqual((len(fits), self.tell("edit", fits)), (MOST_BODY, 200))

    def test_other_methods(self) -> None:
        """There is nothing but asking and telling."""
        for method in ("PUT", "DELETE", "OPTIONS", "HEAD", "TRACE", "CONNECT", "PATCH", "get"):
            self.assertEqual(self.ask(method, f"/{TOKEN}/day")[0], 501, method)

    def test_each_answer_keeps_the_page_to_itself(self) -> None:
        """The headers of a page stand on errors too, also on those of the library."""
        names = [name.lower() for name in HEADERS]
        for method, path, status in (("GET", f"/{TOKEN}/", 200), ("GET", "/", 404), ("PUT", "/", 501), ("POST", f"/{TOKEN}/edit", 403)):
            answered, headers, _ = self.ask(method, path)
            self.assertEqual((answered, [headers.get(name) for name in names]), (status, list(HEADERS.values())), method)
        with socket.create_connection(("127.0.0.1", self.server.server_port), timeout=30) as line:
            line.sendall(b"GET / x HTTP/1.1\r\n\r\n")
            said = line.makefile("rb").read()
        self.assertIn(b" 400 ", said.partition(b"\r\n")[0])
        self.assertIn(b"Content-Security-Policy: default-src 'none'", said)

    def test_a_visit(self) -> None:
        """From elsewhere the page itself can be come to by its address, as from a file, and nothing else."""
        visit = {"Sec-Fetch-Site": "cross-site", "Sec-Fetch-Mode": "navigate", "Sec-Fetch-Dest": "document"}
        self.assertEqual(self.ask("GET", f"/{TOKEN}/", visit)[0], 200)
        for name in ("day", "main.js", "index.html"):
            self.assertEqual(self.ask("GET", f"/{TOKEN}/{name}", visit)[0], 403, name)
        for other in ({"Sec-Fetch-Dest": "iframe"}, {"Sec-Fetch-Mode": "no-cors"}, {"Origin": "http://evil.example"}):
            self.assertEqual(self.ask("GET", f"/{TOKEN}/", visit | other)[0], 403, other)
        self.assertEqual(self.ask("GET", "/no-token/", visit)[0], 404)
        self.assertEqual(self.tell("", b"{}", **{name.replace("-", "_"): value for name, value in visit.items()}), 403)

    def test_lines_that_say_nothing(self) -> None:
        """As many lines as may be are waited for, the oldest goes first, and the page is answered meanwhile."""
        with contextlib.ExitStack() as ended:
            lines = [ended.enter_context(socket.create_connection(("127.0.0.1", self.server.server_port), timeout=30)) for _ in range(MOST_LINES + 30)]
            self.assertEqual(self.ask("GET", f"/{TOKEN}/")[0], 200)
            self.assertLessEqual(len(self.server.waiting), MOST_LINES)
            self.assertEqual(lines[0].recv(1), b"")
            lines[-1].sendall(f"GET /{TOKEN}/ HTTP/1.1\r\nHost: {self.host}\r\n\r\n".encode())
            self.assertIn(b" 200 ", lines[-1].makefile("rb").readline())

    def test_a_line_that_says_a_byte_now_and_then(self) -> None:
        """A request that does not come whole in time is given up, however often something of it comes."""
        with mock.patch("desk.open.web.MOST_SECONDS", 1), socket.create_connection(("127.0.0.1", self.server.server_port), timeout=30) as line:
            began = time.monotonic()
            with contextlib.suppress(OSError):
                while time.monotonic() - began < 20:
                    line.sendall(b"G")
                    line.settimeout(0.2)
                    with contextlib.suppress(TimeoutError):
                        if line.recv(1) == b"":
                            break
            self.assertLess(time.monotonic() - began, 15)
        self.assertEqual(self.ask("GET", f"/{TOKEN}/")[0], 200)

    def test_errors(self) -> None:
        """Errors are words on one line, and names in JSON never end a script."""
        self.assertEqual(json.loads(self.ask("GET", f"/{TOKEN}/state")[2]), {"error": "two\\nlines"})
        self.assertEqual(self.tell("suggest", b"{}"), 400)
        body = self.ask("GET", f"/{TOKEN}/day")[2]
        self.assertNotIn(b"<", body)
        self.assertEqual(json.loads(body), {"day": {"title": "</script>?"}})

    def test_noise(self) -> None:
        """Bytes that are no request end their connection, and the next request is answered."""
        for noise in (b"\x00\xff\n\n", b"GET\r\n\r\n", b"GET / HTTP/9.9\r\n\r\n", b"A" * 70_000 + b"\r\n\r\n",
                      b"POST / HTTP/1.1\r\n" + b"X: y\r\n" * 200 + b"\r\n"):
            with socket.create_connection(("127.0.0.1", self.server.server_port), timeout=30) as line:
                line.sendall(noise)
                line.shutdown(socket.SHUT_WR)
                try:
                    while line.recv(65_536):
                        pass
                except ConnectionResetError:
                    pass
        self.assertEqual(self.ask("GET", f"/{TOKEN}/")[0], 200)


class OpenWordsTest(FolderTest):
    """The words of `desk open`, where it does not come to serve."""

    def test_words(self) -> None:
        """Words of no form, a folder that is not there, and a port that is none."""
        self.assertEqual(self.desk("open")[0], 2)
        self.assertEqual(self.desk("open", self.room / "nowhere")[::2], (1, f"desk: {self.room / 'nowhere'} is no folder\n"))
        self.assertEqual(self.desk("open", self.room, "--planner", "")[0], 2)
        for port in ("-1", "65536", "x"):
            self.assertEqual(self.desk("open", self.room, f"--port={port}")[0], 2)


@needs_program
class OpenTest(FolderTest):
    """`desk open` as it is run."""

    def test_open(self) -> None:
        """It puts the address, answers there and nowhere else, and ends with status 0 when it is stopped."""
        town = self.room / "town"
        shutil.copytree(ROOT / "examples" / "depot", town, ignore=shutil.ignore_patterns("expected"))
        with subprocess.Popen([DESK, "open", town], stdout=subprocess.PIPE, stderr=subprocess.PIPE, text=True,
                              preexec_fn=lambda: signal.signal(signal.SIGINT, signal.SIG_DFL)) as running, \
                contextlib.ExitStack() as ended:
            # A shell starts what runs in the background with the signal ignored, and what is waited for at the end has to end.
            ended.callback(running.kill)
            line = running.stdout.readline()
            found = re.fullmatch(r"open http://(127\.0\.0\.1:\d+)(/[\w-]{32}/) in a browser of this machine; Ctrl\+C ends\n", line)
            self.assertIsNotNone(found, line)
            connection = http.client.HTTPConnection(found[1], timeout=60)
            connection.request("GET", found[2] + "day")
            day = json.load(connection.getresponse())["day"]
            self.assertEqual(day["numbers"], {"fixed": 2, "vehicles": 1, "minutes": 45})
            running.send_signal(signal.SIGINT)
            self.assertEqual((running.wait(30), running.stderr.read()), (0, ""))

    def opened(self, ended: contextlib.ExitStack, *words: str, **more: Any) -> tuple[subprocess.Popen[str], str, str]:
        """`desk open` of a town that runs, with its host and its path."""
        town = self.room / "town"
        shutil.copytree(ROOT / "examples" / "depot", town, ignore=shutil.ignore_patterns("expected"))
        running = ended.enter_context(subprocess.Popen([DESK, "open", town, *words], stdout=subprocess.PIPE, stderr=subprocess.PIPE, text=True, **more))
        ended.callback(running.kill)
        found = re.match(r"open http://([0-9.:]+)(/[\w-]+/) in", running.stdout.readline())
        return running, found[1], found[2]

    def test_without_descriptors(self) -> None:
        """Where no line can be had, the processor is left alone, and the page is answered."""
        limit = lambda: resource.setrlimit(resource.RLIMIT_NOFILE, (40, 40))
        with contextlib.ExitStack() as ended:
            running, host, path = self.opened(ended, preexec_fn=limit)
            for _ in range(200):
                ended.enter_context(socket.create_connection(("127.0.0.1", int(host.partition(":")[2])), timeout=30))
            time.sleep(1)
            before = self.seconds(running.pid)
            time.sleep(2)
            self.assertLess(self.seconds(running.pid) - before, 1)
            connection = http.client.HTTPConnection(host, timeout=60)
            connection.request("GET", path)
            self.assertEqual(connection.getresponse().status, 200)
            connection.close()

    def seconds(self, process: int) -> float:
        """The seconds of the processor that a process has taken."""
        fields = Path(f"/proc/{process}/stat").read_text().rpartition(")")[2].split()
        return (int(fields[11]) + int(fields[12])) / os.sysconf("SC_CLK_TCK")

    def test_each_end_leaves_no_room(self) -> None:
        """Ended by its terminal or by a plain kill it takes its rooms away. What was killed is taken away by the next one."""
        rooms = self.room / "rooms"
        rooms.mkdir()
        for end in (signal.SIGHUP, signal.SIGTERM, signal.SIGKILL):
            with self.subTest(end), contextlib.ExitStack() as ended:
                running, _, _ = self.opened(ended, preexec_fn=lambda: signal.signal(signal.SIGHUP, signal.SIG_DFL), env={**os.environ, "TMPDIR": str(rooms)})
                self.assertEqual(len(list(rooms.iterdir())), 1)
                running.send_signal(end)
                running.wait(60)
            left = list(rooms.iterdir())
            self.assertEqual(len(left), end == signal.SIGKILL)
            shutil.rmtree(self.room / "town")
        os.utime(left[0], (0, 0))
        with mock.patch("tempfile.gettempdir", return_value=str(rooms)), own_room() as room:
            self.assertEqual(list(rooms.iterdir()), [room])

    def test_browser(self) -> None:
        """The browser is handed a file that no other user can read, and the token stands in no command line."""
        town = self.room / "town"
        shutil.copytree(ROOT / "examples" / "depot", town, ignore=shutil.ignore_patterns("expected"))
        seen: list[str] = []

        def look(address: str) -> None:
            """What a browser is started with, and what stands in the file."""
            path = Path(urllib.parse.unquote(address.removeprefix("file://")))
            modes = [stat.S_IMODE(where.stat().st_mode) for where in (path, path.parent)]
            seen.extend((address, path.read_text(), oct(modes[0]), oct(modes[1])))
            raise KeyboardInterrupt

        with mock.patch("webbrowser.open", look), mock.patch.dict(os.environ):
            _, text, _ = self.desk("open", town, "--browser")
        token = re.search(r"http://127\.0\.0\.1:\d+/([\w-]{32})/", text)
        address, page, *modes = seen
        self.assertRegex(address, "^file:///")
        self.assertNotIn(token[1], address)
        self.assertIn(f'<meta http-equiv="refresh" content="0; url={token[0]}">', page)
        self.assertEqual(modes, ["0o600", "0o700"])
        self.assertFalse(Path(address.removeprefix("file://")).exists())

    def test_refused_feed(self) -> None:
        """A feed that the program refuses is an error before a page is served, with the hints of `./desk blocks`."""
        status, _, errors = self.desk("open", self.room)
        self.assertEqual((status, errors.splitlines()[0]), (1, f"desk: {self.room}: feed refused: trips.txt: missing"))
        self.assertEqual(errors.splitlines()[1:], self.desk("blocks", self.room)[2].splitlines())


@needs_program
class SessionTest(FolderTest):
    """What a session writes into a town, with the answers of the program."""

    def setUp(self) -> None:
        super().setUp()
        self.town = self.room / "town"
        shutil.copytree(ROOT / "examples" / "edits", self.town, ignore=shutil.ignore_patterns("expected", "*.csv"))
        for name in ("deadheads.csv", "tolerances.csv"):
            shutil.copy(ROOT / "examples" / "edits" / name, self.town)
        self.session = Session(self.town)

    def script(self, name: str = "edits.csv") -> str:
        path: Path = self.town / name
        return path.read_text() if path.is_file() else ""

    def edit(self, **edit: object) -> dict[str, Any]:
        """The answer to an edit of the day as it stands."""
        return self.session.edit(edit | {"state": self.session.day()["day"]["state"]})

    def test_edits(self) -> None:
        """An accepted edit is one record, and says what it changes; a refused one leaves nothing but its words."""
        first = self.edit(edit="shift", trip="U2", shift=2)
        self.assertEqual((first["said"], len(first["hints"]), self.script()), ("record 1: refused, U2: outside tolerance (+2)", 1, ""))
        answer = self.edit(edit="shift", trip="U2", shift=1)
        self.assertEqual((answer["done"], answer["said"]), (True, "record 1: ok, fixed 2, vehicles 1, minutes 31"))
        self.assertEqual(answer["marks"], {"trips": ["U1", "U2"], "neighbours": 2, "names": 1, "times": 1, "new": 0})
        self.assertEqual(answer["change"]["numbers"], {"vehicles": 1, "minutes": 31, "fixed": 2})
        self.assertEqual(self.script(), "shift,U2,+1\n")
        refused = self.edit(edit="shift", trip="U2", shift=1)
        self.assertEqual(refused, {"done": False, "said": "record 2: refused, U2: outside tolerance (+2)", "hints": [
            "edits.csv record 2: tolerances.csv record 1 allows \"U2\" to run 0 minutes early and 1 late, by its published times. "
            "Write a smaller shift, or a larger tolerance in tolerances.csv."]})
        self.assertEqual(self.script(), "shift,U2,+1\n")
        self.assertTrue(self.edit(edit="undo")["done"])
        again = self.edit(edit="redo")
        self.assertEqual((self.script(), again["change"]["undo"], again["change"]["redo"]), ("shift,U2,+1\nundo\nredo\n", "shift,U2,+1", None))
        self.assertFalse((self.town / "blocks.csv").exists())

    def test_marks(self) -> None:
        """Trips in another block are counted by neighbours and by names. Names mark a trip where they stay, and numbers mark none."""
        shutil.copytree(ROOT / "examples" / "small_town", self.room / "numbered")
        shutil.copytree(ROOT / "examples" / "small_town", self.room / "named")
        toml = self.room / "named" / "desk.toml"
        toml.write_text('block_names = "stated"\n' + toml.read_text())
        found = {}
        for town in ("numbered", "named"):
            session = Session(self.room / town)
            for trip in ("wd_1_o_0540", "wd_2_o_0735"):
                state = session.day()["day"]["state"]
                answer = session.edit({"edit": "cancel", "trip": trip, "state": state})
                found[town, trip] = answer["marks"]
                session.edit({"edit": "undo", "state": answer["change"]["state"]})
        none = {"neighbours": 0, "times": 0, "new": 0}
        self.assertEqual(found["numbered", "wd_1_o_0540"], none | {"trips": [], "names": 163})
        self.assertEqual(found["named", "wd_1_o_0540"], none | {"trips": [], "names": 0})
        cut = ["wd_2_i_0640", "wd_2_i_0810"]
        self.assertEqual(found["numbered", "wd_2_o_0735"], none | {"trips": cut, "neighbours": 2, "names": 18})
        self.assertEqual(found["named", "wd_2_o_0735"], none | {"trips": [*cut, "wd_2_o_0605"], "neighbours": 2, "names": 2})

    def test_names_of_a_day_type(self) -> None:
        """The blocks of a day type keep the names that its own file states, where the agency states others."""
        town = two_trips(self.room / "period", {
            "desk.toml": 'block_names = "stated"\n', "trips.txt": "service_id,trip_id,block_id\nW,U1,old\nW,U2,old\n"})
        day = write_feed(town / "days" / "mon", {"desk.toml": "", "stated.csv": "trip_id,block_id\nU1,N7\nU2,N7\n"})
        names = [[block["name"] for block in Session(folder).day()["day"]["blocks"]] for folder in (town, day)]
        self.assertEqual(names, [["old"], ["N7"]])

    def test_one_run(self) -> None:
        """An edit is one run of the program, and its answer has what changed. The proof of the plan is asked for by itself."""
        day, runs = self.session.day()["day"], []
        with mock.patch.object(program, "run", lambda words: runs.append(words[0]) or RUN(words)):
            change = self.session.edit({"edit": "shift", "trip": "U2", "shift": 1, "state": day["state"]})["change"]
            self.assertEqual((runs, change["proof"]), (["blocks"], None))
            told = self.session.proof({"state": change["state"]})["proof"]
            self.assertEqual(runs, ["blocks", "check", "deficits"])
            self.assertEqual(self.session.proof({"state": day["state"]}), {"proof": None})
        self.assertEqual((told["verdict"]["text"], [place["name"] for place in told["places"]]), ("yes, vehicles 1, minutes 31", ["A", "B", "C"]))
        self.assertEqual(change["trips"], [[0, 1], self.session.day()["day"]["trips"][1]])
        whole = Session(self.town).day()["day"]
        for name in LISTS:
            self.assertEqual(whole_of(day[name], change[name]), whole[name])

    def test_what_is_as_before(self) -> None:
        """Behind many edits the day is as it is read by a session that has not seen them, whatever stays the same object between two."""
        shutil.copytree(ROOT / "examples" / "small_town", self.room / "small")
        routes = self.room / "small" / "routes.txt"
        session = Session(self.room / "small")
        before = session.day()["day"]
        edits = [{"edit": "cancel", "trip": "wd_2_o_0735"}, {"edit": "shift", "trip": "wd_3_i_0850", "shift": 1},
                 {"edit": "extra", "trip": "E", "from": "Station", "to": "Hospital", "departs": "10:00", "arrives": "10:20"},
                 {"edit": "undo"},
                 {"edit": "extra", "trip": "E", "from": "Hospital", "to": "Station", "departs": "10:00", "arrives": "10:20"},
                 {"edit": "extra", "trip": "F", "from": "Station", "to": "Oakfield", "departs": "11:00", "arrives": "11:20"},
                 {"edit": "cancel", "trip": "E"}, {"edit": "undo"}, {"edit": "cancel", "trip": "wd_1_o_0540"}, {"edit": "undo"}]
        for number, edit in enumerate(edits):
            if number == 3:
                routes.write_text(routes.read_text().replace("line_2,stb,2,", "line_2,stb,2b,"))
            answer = session.edit(edit | {"state": before["state"]})
            self.assertTrue(answer["done"], answer)
            change, whole = answer["change"], Session(self.room / "small").day()["day"]
            before = change | {name: whole_of(before[name], change[name]) for name in LISTS}
            passing = ("proof", "made")
            self.assertEqual({name: told for name, told in before.items() if name not in passing},
                             {name: told for name, told in whole.items() if name not in passing}, edit)
            self.assertTrue(any(isinstance(part, list) and part[1] > 9 for part in change["trips"]), edit)
        for places in ("Station,Hospital", "Hospital,Station"):
            (self.room / "small" / "edits.csv").write_text(f"extra,E,{places},10:00,10:20\ncancel,E\n")
            self.assertEqual(session.day()["day"]["trips"], Session(self.room / "small").day()["day"]["trips"])

    def test_blocks_of_another_script(self) -> None:
        """A block that is shown as before is the same object, but where its trip runs between other places now."""
        times = [(trip, number, "08:00:00" if number == 1 else "08:30:00", stop) for trip, ends in (("T", "CD"), ("U", "DC"))
                 for number, stop in enumerate(ends, 1)]
        town = Town(write_feed(self.room / "two", {
            "trips.txt": "service_id,trip_id\nW,T\nW,U\n",
            "stop_times.txt": table("trip_id,stop_sequence,arrival_time,departure_time,stop_id",
                                    [(trip, number, time, time, stop) for trip, number, time, stop in times])}))
        there, back = ({"edits.csv": f"extra,E,{places},08:10,08:40\n".encode()} for places in ("C,D", "D,C"))
        first, whole = plan_day(town, there), plan_day(town, back)
        second = plan_day(town, back, before=first)
        self.assertEqual(([block.name for block in whole.blocks], first.shown), (["B1", "B2", "B3"], second.shown))
        self.assertEqual((second.blocks, second.published), (whole.blocks, whole.published))
        after = plan_day(town, second.scripts, before=second)
        self.assertTrue(all(one is other for one, other in zip(second.blocks, after.blocks, strict=True)))

    def test_parts(self) -> None:
        """A list in parts has what stood in the one before as slices, wherever it stands now, and all else as it is."""
        for before, after, parts in (("abc", "abc", [[0, 3]]), ("abc", "axcd", [[0, 1], "x", [2, 1], "d"]), ("abc", "", []), ("", "a", ["a"]),
                                     ("abc", "ab", [[0, 2]]), ("abc", "bcd", [[1, 2], "d"]), ("abc", "xabc", ["x", [0, 3]])):
            self.assertEqual(parts_of(list(before), list(after)), parts)
            self.assertEqual(whole_of(list(before), parts), list(after))

    def test_extra_and_cancel(self) -> None:
        """Extra trips come in, cancelled ones go and come back."""
        change = self.edit(edit="extra", trip="E, 1", **{"from": "B", "to": "C"}, departs="6:40", arrives="06:50")["change"]
        self.assertEqual([trip if isinstance(trip, list) else trip["id"] for trip in change["trips"]], [[0, 2], "E, 1"])
        self.assertTrue(self.edit(edit="cancel", trip="E, 1")["done"])
        self.assertEqual([trip["id"] for trip in self.session.day()["day"]["trips"] if not trip["runs"]], ["E, 1"])
        self.assertTrue(self.edit(edit="restore", trip="E, 1")["done"])
        self.assertEqual(self.script(), 'extra,"E, 1",B,C,6:40,06:50\ncancel,"E, 1"\nrestore,"E, 1"\n')

    def test_changed_folder(self) -> None:
        """Where another program has changed the folder, the day is read again and nothing is written."""
        state = self.session.day()["day"]["state"]
        (self.town / "edits.csv").write_text("cancel,U1\n")
        self.assertNotEqual(self.session.state()["state"], state)
        answer = self.session.edit({"edit": "shift", "trip": "U2", "shift": 1, "state": state})
        self.assertEqual((answer["done"], answer["said"], answer["day"]["script"][0]["text"]), (False, CHANGED, "cancel,U1"))
        self.assertEqual(self.script(), "cancel,U1\n")

    def test_changed_meanwhile(self) -> None:
        """What another program writes while the program tries an edit is not lost."""
        state = self.session.day()["day"]["state"]
        tried = self.session._tried

        def try_and_change(*words: Any) -> Any:
            """Tries an edit, and writes into the folder as somebody else would."""
            after = tried(*words)
            (self.town / "edits.csv").write_text("cancel,U1\n")
            return after

        self.session._tried = try_and_change  # type: ignore[method-assign]
        answer = self.session.edit({"edit": "shift", "trip": "U2", "shift": 1, "state": state})
        self.assertEqual((answer["done"], answer["said"], self.script()), (False, CHANGED, "cancel,U1\n"))

    def test_open_quote(self) -> None:
        """A script behind which no record can be put is an error, and stays."""
        (self.town / "edits.csv").write_text('cancel,"U1\n')
        with self.assertRaisesRegex(DeskError, "quote"):
            self.session.day()
        self.assertEqual(self.script(), 'cancel,"U1\n')

    def test_a_pipe_that_comes_meanwhile(self) -> None:
        """A named pipe in the place of a file is an error by its name, and nothing waits for it."""
        state = self.session.day()["day"]["state"]
        (self.town / "deadheads.csv").unlink()
        os.mkfifo(self.town / "deadheads.csv")
        edit = {"edit": "shift", "trip": "U2", "shift": 1, "state": state}
        for asked in (self.session.day, lambda: self.session.edit(edit), lambda: self.session.keep({}),
                      lambda: self.session.suggest({"word": "shifts"}), lambda: self.session.export({"what": "blocks"})):
            with self.assertRaisesRegex(DeskError, "deadheads.csv is a named pipe"):
                asked()
        self.assertEqual(self.script(), "")

    def test_suggestions(self) -> None:
        """The suggestions are those of the program, of the day as it stands."""
        self.assertEqual(self.session.suggest({"word": "shifts"})["found"],
                         {"count": 0, "untried": 0, "sum": 2, "offered": [], "now": {"vehicles": 2, "minutes": 0}})
        self.assertEqual(self.session.suggest({"word": "audit"})["found"]["vehicles"], 2)
        for word in ("blocks", "keep", None, ["audit"]):
            with self.assertRaises(UsageError):
                self.session.suggest({"word": word})

    def test_tried_suggestions(self) -> None:
        """A shift that saves a vehicle is offered with what it does. A chain is not, where the plan has its deadhead already."""
        def suggested(word: str) -> dict[str, Any]:
            return Session(self.town).suggest({"word": word})["found"]

        shutil.copy(ROOT / "examples" / "depot" / "depot.csv", self.town)
        for name in ("trips.txt", "stop_times.txt", "deadheads.csv"):
            shutil.copy(ROOT / "examples" / "depot" / name, self.town)
        (self.town / "tolerances.csv").unlink()
        found = suggested("chains")
        self.assertEqual((found["count"], found["sum"], found["offered"]), (1, 1, []))
        times = [("V1", 1, "06:00:00", "A"), ("V1", 2, "06:30:00", "B"), ("V2", 1, "06:29:00", "B"), ("V2", 2, "06:59:00", "A")]
        town = write_feed(self.room / "two", {
            "desk.toml": "late = 1\n", "trips.txt": "service_id,trip_id\nW,V1\nW,V2\n",
            "stop_times.txt": table("trip_id,stop_sequence,arrival_time,departure_time,stop_id",
                                    [(trip, number, time, time, stop) for trip, number, time, stop in times])})
        for script, now, offered in (("", 2, [1]), ("cancel,V1\nundo\nshift,V2,+9", 2, [1]), ("shift,V2,+1\n", 1, [])):
            (town / "edits.csv").write_text(script)
            found = Session(town).suggest({"word": "shifts"})["found"]
            self.assertEqual(found["now"], {"vehicles": now, "minutes": 0})
            self.assertEqual([one["vehicles"] for one in found["offered"]], offered)
            self.assertEqual((town / "edits.csv").read_text(), script)
        self.assertEqual(tried(plan_day(Town(town)), [{"edits": [{"edit": "cancel", "trip": name}], "own": 0} for name in ("X", "V1")]),
                         [{"edits": [{"edit": "cancel", "trip": "V1"}], "own": 0, "vehicles": 1, "minutes": 0}])

    def test_keep(self) -> None:
        """What is kept already is not kept again."""
        self.edit(edit="shift", trip="U2", shift=1)
        self.assertEqual(self.session.keep({})["said"], "journal 0 records\nrecord 1: ok\nkept 1 records\n")
        self.assertEqual(self.session.keep({})["said"], NOTHING)
        self.edit(edit="cancel", trip="U1")
        self.assertEqual(self.session.keep({})["said"], "journal 1 records\nrecord 1: ok\nkept 2 records\n")
        self.assertEqual(self.script(), "shift,U2,+1\ncancel,U1\n")
        self.assertEqual(canonical(("extra", "E", "A", "B", "7:05", " 08:00")), ("extra", "E", "A", "B", "07:05", "08:00"))

    def test_export(self) -> None:
        """The files of the plan are written into the town, and the page says that they are of it."""
        self.assertEqual(self.session.day()["day"]["written"], "missing")
        answer = self.session.export({"what": "blocks"})
        self.assertIn("fixed 2, vehicles 2, minutes 0", answer["said"])
        self.assertEqual(answer["day"]["written"], "same")
        self.assertIn("sum 2, blocks 2", self.session.export({"what": "boards"})["said"])
        self.assertIn("wrote trips_blocks.txt", self.session.export({"what": "feed"})["said"])
        self.assertTrue(self.edit(edit="shift", trip="U2", shift=1)["done"])
        self.assertEqual(self.session.day()["day"]["written"], "other")
        for what in ("../x", None, ["blocks"], {}):
            with self.assertRaises(UsageError):
                self.session.export({"what": what})

    def test_planners(self) -> None:
        """A planner's edits have the name before them, and an undo that is held says by whom."""
        ann, bob = Session(self.town, "ann"), Session(self.town, "bob")

        def edit(session: Session, **words: object) -> dict[str, Any]:
            return session.edit(words | {"state": session.day()["day"]["state"]})

        self.assertTrue(edit(ann, edit="shift", trip="U2", shift=1)["done"])
        self.assertTrue(edit(bob, edit="cancel", trip="U2")["done"])
        held = edit(ann, edit="undo")
        self.assertEqual((held["done"], held["said"]), (False, "planner 3: refused, U2: held by record 2 (bob: cancel, U2)"))
        self.assertEqual(self.script("planner_edits.csv"), "ann,shift,U2,+1\nbob,cancel,U2\n")
        day = ann.day()["day"]
        standing = [(edit["planner"], edit["text"]) for edit in day["planners"]["standing"]]
        self.assertEqual(standing, [("ann", "shift,U2,+1"), ("bob", "cancel,U2")])
        self.assertEqual(day["proof"]["held"], {"ann": "bob: cancel, U2"})
        self.assertEqual((day["planner"], day["numbers"]["vehicles"], self.script()), ("ann", 1, ""))
        self.assertIn("took 2 records", ann.keep({})["said"])
        self.assertEqual(self.script(), "shift,U2,+1\ncancel,U2\n")

    def test_who_holds_whom(self) -> None:
        """The last edit of each planner says who holds it, as the program says to an undo, or nothing where it cannot be asked."""
        script = '"ann, early",shift,U2,+1\nbob,cancel,U1\n"ann, early",cancel,U2\ncy,restore,U1\nbob,shift,U2,+1\n'
        (self.town / "planner_edits.csv").write_text(script)
        told = Session(self.town, "ann, early").day()["day"]
        self.assertEqual([(edit["planner"], edit["text"]) for edit in told["planners"]["standing"]], [
            ("ann, early", "shift,U2,+1"), ("bob", "cancel,U1"), ("ann, early", "cancel,U2"), ("cy", "restore,U1")])
        self.assertEqual(told["proof"]["held"], {"bob": "cy: restore, U1"})
        self.assertEqual((self.town / "planner_edits.csv").read_text(), script)
        (self.town / "planner_edits.csv").write_text("ann,shift,U2,+1\nbob,cancel,U2\n" + "ann,redo\n" * 4094)
        told = Session(self.town, "ann").day()["day"]
        self.assertEqual((len(told["planners"]["standing"]), told["proof"]["held"]), (2, {}))
