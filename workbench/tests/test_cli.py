"""The command line: help, versions, statuses, and errors of one line."""
from __future__ import annotations

import os
import signal
import subprocess
import sys
from unittest import mock

from desk import cli
from desk.errors import DeskError, one_line
from desk.program import ROOT
from desk.versions import UNKNOWN, version
from tests.feeds import DESK, FolderTest, demonstration, write_feed, zip_feed



class Words(FolderTest):
    """What the words of a command line come to."""

    def test_help_of_all_and_of_each_command(self) -> None:
        status, text, errors = self.desk("--help")
        self.assertEqual((0, ""), (status, errors))
        self.assertIn("is not proved", text)
        for module in cli.COMMANDS:
            for word in cli.words_of(module):
                with self.subTest(word):
                    self.assertIn(f"  {word} ", text)
                    status, of_word, errors = self.desk(word, "--help")
                    self.assertEqual((0, ""), (status, errors))
                    self.assertIn(f"usage: desk {word}", of_word)
                    places = [of_word.find(part) for part in ("Example: ", "positional arguments:", "options:") if part in of_word]
                    self.assertEqual(places, sorted(places))

    def test_words_of_no_form(self) -> None:
        for words in ((), ("unknown",), ("new",), ("new", "a"), ("new", "a", "b", "c"), ("new", "a", "b", "--unknown"), ("--unknown",),
                      ("new", "a", "b", "--speed", "0"), ("new", "a", "b", "--speed", "nan"), ("new", "a", "b", "--detour", "x"),
                      ("new", "a", "b", "--date", "20260931"), ("new", "a", "b", "--date"), ("new", "a", "./a")):
            with self.subTest(words=words):
                status, text, errors = self.desk(*words)
                self.assertEqual((2, "", 1), (status, text, errors.count("\n")))
                self.assertTrue(errors.startswith("desk: "))

    def test_a_value_may_begin_with_a_minus(self) -> None:
        words = ["new", "a", "b", "--depot", "-33.9,18.4", "--replace"]
        self.assertEqual(["new", "a", "b", "--depot=-33.9,18.4", "--replace"], cli.with_signs(words))
        self.assertEqual(["--depot=1,2", "-3", "a", "-3"], cli.with_signs(["--depot=1,2", "-3", "a", "-3"]))

    def test_version(self) -> None:
        status, text, errors = self.desk("--version")
        self.assertEqual((0, "", 2), (status, errors, text.count("\n")))
        self.assertRegex(text, "^desk of commit .+\nkit: .+\n$")

    def test_version_of_an_archive(self) -> None:
        (self.room / "PROVENANCE").write_text("commit abc\nrattle-kit-9 logic 1\n12 passed, 0 failed\n")
        with mock.patch("desk.versions.ROOT", self.room):
            self.assertEqual("desk of commit abc\nkit: rattle-kit-9 logic 1", version())

    def test_version_where_nothing_tells_it(self) -> None:
        with mock.patch("desk.versions.ROOT", self.room), mock.patch.dict(os.environ, {"PATH": str(self.room)}):
            self.assertEqual(f"desk of commit {UNKNOWN}\nkit: {UNKNOWN}", version())

    def test_errors_are_one_line(self) -> None:
        for error, status, message in ((DeskError("a\nb\x1b[0m"), 1, "desk: a\\nb\\x1b[0m\n"), (KeyboardInterrupt(), 1, "desk: stopped\n"),
                                       (MemoryError(), 1, "desk: there is not enough memory\n"),
                                       (FileNotFoundError(2, "No such file", "x"), 1, "desk: x: No such file\n"),
                                       (OSError(98, "Address already in use"), 1, "desk: Address already in use\n")):
            with self.subTest(message), mock.patch("desk.new.run", side_effect=error):
                self.assertEqual((status, "", message), self.desk("new", "a", "b"))
        self.assertEqual("caf\\udce9 é", one_line("caf\udce9 é"))


class Ends(FolderTest):
    """Signals that end a command."""

    def test_what_was_begun_is_put_away(self) -> None:
        for number in cli.ENDS:
            before = signal.getsignal(number)
            with self.subTest(number), mock.patch("desk.new.steps.draft_settings", side_effect=lambda *unused: os.kill(os.getpid(), number)):
                # A signal that nobody minds ends the process of the tests.
                signal.signal(number, signal.SIG_DFL)
                try:
                    ended = self.desk("new", zip_feed(self.room / "feed.zip", demonstration()), self.room / "town")
                    self.assertEqual(signal.getsignal(number), signal.SIG_DFL)
                finally:
                    signal.signal(number, before)
                self.assertEqual((1, "", "desk: stopped\n"), ended)
                self.assertEqual(["feed.zip"], os.listdir(self.room))

    def test_a_signal_that_is_ignored_stays_so(self) -> None:
        before = signal.signal(signal.SIGHUP, signal.SIG_IGN)
        self.addCleanup(signal.signal, signal.SIGHUP, before)
        with mock.patch("desk.new.run", side_effect=lambda *unused: os.kill(os.getpid(), signal.SIGHUP) or 0):
            self.assertEqual((0, "", ""), self.desk("new", "a", "b"))

    def test_no_traceback_while_the_modules_are_read(self) -> None:
        """Here a module of the library takes long to be read, and Ctrl+C comes meanwhile."""
        (self.room / "argparse.py").write_text("print('reading', flush=True)\nimport time\ntime.sleep(60)\n")
        with subprocess.Popen([DESK, "--help"], stdout=subprocess.PIPE, stderr=subprocess.PIPE, text=True,
                              env={**os.environ, "PYTHONPATH": str(self.room)},
                              preexec_fn=lambda: signal.signal(signal.SIGINT, signal.SIG_DFL)) as running:
            self.assertEqual("reading\n", running.stdout.readline())
            running.send_signal(signal.SIGINT)
            self.assertEqual((-signal.SIGINT, ""), (running.wait(60), running.stderr.read()))


class Launcher(FolderTest):
    """The launcher, as it is run."""

    def launch(self, *words: object, **more: object) -> subprocess.CompletedProcess[str]:
        """Runs the launcher from a folder that has modules of names that the workbench uses."""
        for name in ("csv.py", "desk.py", "argparse.py"):
            (self.room / name).write_text("raise SystemExit(9)\n")
        return subprocess.run([DESK, *map(str, words)], cwd=self.room, capture_output=True, text=True, check=False, **more)

    def test_it_runs_from_any_folder_and_by_a_link(self) -> None:
        (self.room / "link").symlink_to(DESK)
        for words in ([DESK, "--help"], [self.room / "link", "--help"], [sys.executable, DESK, "--help"]):
            ran = subprocess.run(words, cwd="/", capture_output=True, text=True, check=False)
            self.assertEqual((0, ""), (ran.returncode, ran.stderr))
            self.assertIn("usage: desk", ran.stdout)
        self.assertEqual(0, self.launch("--help").returncode)

    def test_statuses(self) -> None:
        write_feed(self.room / "feed", demonstration())
        for words, status in ((["--help"], 0), ([], 2), (["new", "feed", "town"], 1), (["new", "nothing", "town2"], 1)):
            ran = self.launch(*words)
            self.assertEqual(status, ran.returncode, ran)
            self.assertNotIn("Traceback", ran.stderr)
        self.assertIn("To mend:", self.launch("new", "feed", "town", "--replace").stdout)

    def test_an_older_python_is_told(self) -> None:
        code = f"import sys, runpy; sys.version_info = (3, 8, 1); runpy.run_path({str(DESK)!r})"
        ran = subprocess.run([sys.executable, "-c", code], capture_output=True, text=True, check=False)
        self.assertEqual((1, "", "desk: Python 3.11 or later is needed, and this is 3.8\n"), (ran.returncode, ran.stdout, ran.stderr))

    def test_a_reader_that_goes_away(self) -> None:
        with subprocess.Popen([DESK, "--help"], stdout=subprocess.PIPE, stderr=subprocess.PIPE, text=True) as running:
            running.stdout.close()
            self.assertEqual("", running.stderr.read())

    def test_a_full_disk_is_told(self) -> None:
        with open("/dev/full", "w") as full:
            ran = subprocess.run([DESK, "--help"], stdout=full, stderr=subprocess.PIPE, text=True, check=False)
        self.assertEqual((1, "desk: No space left on device\n"), (ran.returncode, ran.stderr))

    def test_no_output_at_all(self) -> None:
        ran = subprocess.run(["bash", "-c", f"'{DESK}' --help >&-"], stderr=subprocess.PIPE, text=True, check=False)
        self.assertEqual((0, ""), (ran.returncode, ran.stderr))

    def test_texts_of_any_locale(self) -> None:
        feed = {**demonstration(), "stops.txt": demonstration()["stops.txt"].replace("Amargosa Valley (Demo)", "Grenoble-Échirolles")}
        write_feed(self.room / "feed", feed)
        ran = self.launch("new", "feed", "town", env={**os.environ, "LC_ALL": "C", "PYTHONUTF8": "0"}, encoding="utf-8")
        self.assertIn("Grenoble-Échirolles 218", ran.stdout)
