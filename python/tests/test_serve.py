"""The sheet in a browser, without one: every request that a page makes, and those that none may make."""
from __future__ import annotations

import http.client
import json
import os
import shutil
import signal
import socket
import subprocess
import sys
import tempfile
import threading
import unittest
from pathlib import Path
from typing import Any

from lukhandro.answers import Answers
from lukhandro.serve import LONGEST_BODY, Server
from lukhandro.sheet import Sheet

SUNDAY = """# Sunday, line 12
early.start   = 7:00:00
early.end     = 8:00:00
early.headway = 0:10:00   in 0:01:00..2:00:00   # as in the feed
early.trips   = DEPARTURES(early.start, early.end, early.headway)
early.last    = LAST(early.start, early.end, early.headway)
crew          = LINEAR(2 + 4*early.trips)
gap           = ELEMENT(crew; early.start, early.end)
"""


class Served(unittest.TestCase):
    """A sheet that is served for the time of a test."""

    text = SUNDAY

    def setUp(self) -> None:
        self.folder = tempfile.mkdtemp()
        self.addCleanup(shutil.rmtree, self.folder)
        self.path = os.path.join(self.folder, "sunday.lkt")
        Path(self.path).write_text(self.text)
        self.server = Server(Answers(Sheet.open(self.path), self.path))
        self.addCleanup(self.server.server_close)
        thread = threading.Thread(target=self.server.serve_forever, kwargs={"poll_interval": 0.01})
        thread.start()
        self.addCleanup(thread.join)
        self.addCleanup(self.server.shutdown)
        self.own = f"127.0.0.1:{self.server.server_port}"

    def request(self, method: str, path: str, body: bytes | None = None, **headers: str) -> tuple[int, Any, Any]:
        """Status, answer and headers of one request; the token stands where the path has {}."""
        connection = http.client.HTTPConnection("127.0.0.1", self.server.server_port, timeout=20)
        try:
            given = {"Host": self.own, **{name.replace("_", "-"): value for name, value in headers.items()}}
            connection.request(method, path.format(self.server.token), body, given)
            answer = connection.getresponse()
            data = answer.read()
            kind = answer.headers["Content-Type"]
            return answer.status, json.loads(data) if kind == "application/json" else data.decode(), answer.headers
        finally:
            connection.close()

    def look(self, what: str) -> Any:
        """What a page looks at."""
        status, said, _ = self.request("GET", "/{}/api/" + what)
        self.assertEqual(status, 200, said)
        return said

    def post(self, what: str, asked: Any, **headers: str) -> tuple[int, Any]:
        """What a page sends."""
        body = asked if isinstance(asked, bytes) else json.dumps(asked).encode()
        return self.request("POST", "/{}/api/" + what, body, **{"Origin": f"http://{self.own}", **headers})[:2]

    def value(self, name: str) -> str:
        """The value of a variable on the sheet."""
        return next(v["shown"] for v in self.look("sheet")["variables"] if v["name"] == name)


class Moves(Served):
    """Trying, keeping, taking back and saving."""

    def test_a_move_is_tried_kept_and_taken_back(self) -> None:
        status, tried = self.post("try", {"move": {"early.headway": "0:09:00"}, "pins": ["crew"], "route": 3})
        self.assertEqual(status, 200)
        changes = {c["name"]: c["shown"] for c in tried["changes"]}
        self.assertEqual(changes, {"early.headway": "0:09:00", "early.trips": "7", "early.last": "7:54:00", "crew": "30"})
        self.assertEqual([(p["name"], p["shown"]) for p in tried["pinned"]], [("crew", "30")])
        self.assertEqual((tried["evaluations"], tried["route"], tried["state"]), (2, 3, 0))
        self.assertEqual(self.value("early.trips"), "6", "a trial alters nothing")
        status, kept = self.post("keep", {"move": {"early.headway": "0:09:00"}, "state": 0})
        self.assertEqual((status, kept["state"], kept["log"], kept["unsaved"]),
                         (200, 1, [["early.headway: 0:10:00 to 0:09:00"]], True))
        self.assertEqual(self.value("early.trips"), "7")
        status, back = self.post("back", {"state": 1})
        self.assertEqual((status, back["state"], back["log"], back["unsaved"]), (200, 2, [], False))
        self.assertEqual(self.value("early.trips"), "6")

    def test_each_route_gives_the_same_numbers(self) -> None:
        for route in (1, 2, 3):
            tried = self.post("try", {"move": {"early.headway": "540"}, "pins": ["early.last", "crew"], "route": route})[1]
            self.assertEqual([p["shown"] for p in tried["pinned"]], ["7:54:00", "30"])

    def test_a_refusal_is_said_at_its_field(self) -> None:
        for typed, words in (("60000", "bounds"), ("x", "no value"), ("7:61:00", "no clock time"), ("", "no value")):
            status, said = self.post("try", {"move": {"early.headway": typed}, "pins": [], "route": 3})
            self.assertEqual((status, said["error"]["name"]), (200, "early.headway"))
            self.assertIn(words, said["error"]["sentence"])
        status, said = self.post("keep", {"move": {"crew": "1"}, "state": 0})
        self.assertEqual((status, said["error"]["name"]), (200, "crew"))
        self.assertIn("made by a formula", said["error"]["sentence"])
        self.assertEqual(self.look("state"), {"state": 0})

    def test_a_page_that_shows_an_older_state_stores_nothing(self) -> None:
        self.assertEqual(self.post("keep", {"move": {"early.headway": "0:09:00"}, "state": 0})[0], 200)
        for what, asked in (("keep", {"move": {"early.headway": "0:08:00"}}), ("back", {}), ("save", {})):
            status, said = self.post(what, {**asked, "state": 0})
            self.assertEqual((status, said["error"]["stale"]), (200, True))
            self.assertIn("another page", said["error"]["sentence"])
        self.assertEqual(self.value("early.trips"), "7")

    def test_the_log_says_what_each_move_was(self) -> None:
        for state, typed in enumerate(("0:09:00", "0:08:00")):
            self.post("keep", {"move": {"early.headway": typed}, "state": state})
        self.assertEqual(self.look("sheet")["log"],
                         [["early.headway: 0:09:00 to 0:08:00"], ["early.headway: 0:10:00 to 0:09:00"]])
        for state in (2, 3):
            self.post("back", {"state": state})
        self.assertIn("no kept move", self.post("back", {"state": 4})[1]["error"]["sentence"])

    def test_only_the_number_changes_in_the_file(self) -> None:
        self.post("keep", {"move": {"early.headway": "0:09:00"}, "state": 0})
        self.assertEqual(Path(self.path).read_text(), SUNDAY, "nothing is saved before it is asked for")
        self.assertEqual(self.post("save", {"state": 1})[0], 200)
        self.assertEqual(Path(self.path).read_text(), SUNDAY.replace("0:10:00", "0:09:00"))
        self.assertFalse(self.look("sheet")["unsaved"])

    def test_blanks_have_their_reason_and_the_way_down(self) -> None:
        self.post("keep", {"move": {"early.headway": "0:01:00"}, "state": 0})
        gap = next(v for v in self.look("sheet")["variables"] if v["name"] == "gap")
        self.assertEqual((gap["shown"], gap["blank"]), ("-", "the index lies outside"))
        self.assertIn("crew", "".join(self.look("why?name=gap")["lines"]))

    def test_the_graph_goes_two_steps_each_way(self) -> None:
        around = self.look("around?name=crew")
        self.assertEqual({(n["name"], n["step"]) for n in around["nodes"]},
                         {("crew", 0), ("early.trips", -1), ("early.start", -2), ("early.end", -2), ("early.headway", -2), ("gap", 1)})
        self.assertIn(["early.trips", "crew"], around["links"])

    def test_the_day_is_the_boards_list(self) -> None:
        tried = self.post("try", {"move": {"early.end": "7:30:00"}, "pins": [], "route": 3})[1]
        lane = tried["day"]["lanes"][0]
        self.assertEqual((lane["name"], lane["now"]["departures"][-1]), ("early", 28200))
        self.assertEqual(lane["tried"]["departures"], [25200, 25800, 26400], "no departure when service ceases")


class Strangers(Served):
    """Requests that are refused, each with a clear answer and the state as it was."""

    def tearDown(self) -> None:
        self.assertEqual((self.look("state"), self.value("early.trips")), ({"state": 0}, "6"))

    def refused(self, got: tuple[int, Any, Any], status: int, words: str) -> None:
        self.assertEqual(got[0], status, got[1])
        self.assertIn(words, got[1]["error"]["sentence"])

    def test_a_wrong_token(self) -> None:
        for path in ("/", "/x/", "/favicon.ico", "/%7B%7D/api/sheet", "/" + "a" * 32 + "/api/sheet", "/%C3%BC/api/sheet"):
            self.refused(self.request("GET", path.replace("{", "{{").replace("}", "}}")), 403, "token")
        self.refused(self.request("POST", "/x/api/keep", b"{}", Origin=f"http://{self.own}"), 403, "token")

    def test_another_origin_or_address(self) -> None:
        body = json.dumps({"move": {"early.headway": "540"}, "state": 0}).encode()
        for origin in ("http://example.org", "null", "https://" + self.own, "http://127.0.0.1:1"):
            self.refused(self.request("POST", "/{}/api/keep", body, Origin=origin), 403, "another page")
        self.refused(self.request("POST", "/{}/api/keep", body), 403, "from which page")
        self.refused(self.request("GET", "/{}/api/sheet", Origin="http://example.org"), 403, "another page")
        self.refused(self.request("GET", "/{}/api/sheet", Sec_Fetch_Site="cross-site"), 403, "another page")
        self.refused(self.request("GET", "/{}/api/sheet", Host="example.org"), 403, "address")

    def test_a_body_of_100_megabytes(self) -> None:
        self.refused((*self.post("keep", b" " * 100_000_000), None), 413, f"{LONGEST_BODY:,}")

    def test_a_body_without_a_length(self) -> None:
        self.refused((*self.post("keep", b"{}", Content_Length="x"), None), 411, "how long")

    def test_broken_json(self) -> None:
        for body in (b"", b"{", b"\xff", b"[" * 100_000, b"nope"):
            self.refused((*self.post("try", body), None), 400, "JSON")
        for asked in ([], 3, "x", None):
            self.refused((*self.post("keep", asked), None), 400, "object")
        for asked in ({}, {"move": []}, {"move": {"early.headway": 540}}, {"move": {}, "route": 4}, {"move": {}, "route": True},
                      {"move": {}, "pins": "crew"}, {"move": {}, "pins": ["crew"] * 33}, {"move": {}, "pins": [7]},
                      {"move": {}, "holds": 7}):
            self.assertEqual(self.post("try", asked)[0], 400, asked)

    def test_a_name_that_is_not_there(self) -> None:
        self.refused((*self.post("keep", {"move": {"early.headwai": "540"}, "state": 0}), None), 404, "early.headwai")
        self.refused(self.request("GET", "/{}/api/why?name=nobody"), 404, "nobody")
        self.refused(self.request("GET", "/{}/api/why"), 400, "name")

    def test_what_is_not_there(self) -> None:
        for path in ("/{}/api/nothing", "/{}/sheet", "/{}/../serve.py", "/{}/api/keep"):
            self.refused(self.request("GET", path), 404, "nothing at this address")
        self.refused(self.request("POST", "/{}/api/sheet", b"{}", Origin=f"http://{self.own}"), 404, "nothing")
        self.refused(self.request("PUT", "/{}/api/keep", b"{}"), 501, "GET or POST")

    def test_what_is_no_request(self) -> None:
        with socket.create_connection(("127.0.0.1", self.server.server_port), timeout=10) as line:
            line.sendall(b"hello\r\n\r\n")
            self.assertIn(b"no request", line.recv(4096))

    def test_a_thousand_requests_at_once(self) -> None:
        answers: list[tuple[int, bool]] = []

        def one(k: int) -> None:
            asked = {"move": {"early.headway": str(300 + k)}, "pins": ["crew"], "route": 1 + k % 3}
            status, said = self.post("try" if k % 10 else "keep", {**asked, "state": 0 if k % 10 else -1})
            answers.append((status, "error" in said))

        threads = [threading.Thread(target=one, args=(k,)) for k in range(1000)]
        for thread in threads:
            thread.start()
        for thread in threads:
            thread.join()
        self.assertEqual((answers.count((200, False)), answers.count((200, True)), len(answers)), (900, 100, 1000))


class Typed(unittest.TestCase):
    """The command as users type it."""

    def test_it_says_where_the_sheet_is_and_ends_when_it_is_interrupted(self) -> None:
        root = Path(__file__).resolve().parent.parent.parent
        command = [sys.executable, "-m", "lukhandro", "serve", str(root / "examples" / "sunday.lkt")]
        served = subprocess.Popen(command, stdout=subprocess.PIPE, stderr=subprocess.PIPE, text=True,
                                  env=dict(os.environ, PYTHONPATH=str(root / "python")),
                                  preexec_fn=lambda: signal.signal(signal.SIGINT, signal.SIG_DFL))  # it may be ignored, as behind nohup
        self.addCleanup(served.stdout.close)
        self.addCleanup(served.stderr.close)
        self.assertRegex(served.stdout.readline(), r"^The sheet of .*sunday.lkt is at http://127\.0\.0\.1:\d+/[\w-]{32}/$")
        self.assertIn("Ctrl+C", served.stdout.readline())
        served.send_signal(signal.SIGINT)
        self.assertEqual((served.wait(10), served.stderr.read()), (0, ""))

    def test_what_cannot_be_served(self) -> None:
        root = Path(__file__).resolve().parent.parent.parent
        with socket.create_server(("127.0.0.1", 0)) as taken:
            port = str(taken.getsockname()[1])
            for words, said in (([str(root / "nosuch.lkt")], "cannot read"), ([str(root / "examples" / "sunday.lkt"), "--port", port], "port")):
                done = subprocess.run([sys.executable, "-m", "lukhandro", "serve", *words], capture_output=True, text=True, timeout=20,
                                      env=dict(os.environ, PYTHONPATH=str(root / "python")))
                self.assertEqual((done.returncode, "Traceback" in done.stderr), (2, False), done.stderr)
                self.assertIn(said, done.stderr)


class Page(Served):
    """The page and its parts."""

    def test_the_page_has_nothing_from_outside(self) -> None:
        for part in ("", "style.css", "sheet.js"):
            status, text, headers = self.request("GET", "/{}/" + part)
            self.assertEqual(status, 200)
            self.assertNotIn("http://", text.replace("http://www.w3.org/2000/svg", ""))
            self.assertNotIn("https://", text)
            self.assertIn("default-src 'none'", headers["Content-Security-Policy"])
            self.assertEqual((headers["Cache-Control"], headers["Referrer-Policy"]), ("no-store", "no-referrer"))

    def test_it_listens_to_this_machine_alone(self) -> None:
        self.assertEqual(self.server.server_address[0], "127.0.0.1")
        self.assertTrue(self.server.address.startswith(f"http://{self.own}/{self.server.token}"))
        self.assertGreaterEqual(len(self.server.token), 32)


if __name__ == "__main__":
    unittest.main()
