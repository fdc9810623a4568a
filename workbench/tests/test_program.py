"""The program is run with words, and answers byte for byte."""
from __future__ import annotations

import os
from unittest import mock

from desk.errors import DeskError
from desk.program import ROOT, Outcome, program_path, run
from tests.feeds import FolderTest, needs_program


class Program(FolderTest):
    """Which program is run, and what is given back."""

    def test_the_environment_names_it(self) -> None:
        with mock.patch.dict(os.environ, {"BLOCKDESK": "/somewhere/program"}):
            self.assertEqual("/somewhere/program", str(program_path()))
        with mock.patch.dict(os.environ):
            os.environ.pop("BLOCKDESK", None)
            self.assertEqual(ROOT / "blockdesk", program_path())

    def test_what_it_puts_is_given_back(self) -> None:
        program = self.room / "program"
        program.write_text("#!/bin/sh\nprintf 'out %s\\377' \"$2\"; printf 'error' >&2; exit 7\n")
        program.chmod(0o755)
        with mock.patch.dict(os.environ, {"BLOCKDESK": str(program)}):
            self.assertEqual(Outcome(7, b"out a b\xff", b"error"), run(["fixed", "a b"]))

    def test_a_program_that_is_not_there(self) -> None:
        with mock.patch.dict(os.environ, {"BLOCKDESK": str(self.room / "nothing")}):
            with self.assertRaisesRegex(DeskError, "nothing cannot be run: No such file"):
                run(["fixed", "x"])
        with self.assertRaisesRegex(DeskError, "with these words"):
            run(["a\0b"])

    @needs_program
    def test_the_program_answers(self) -> None:
        self.assertEqual(Outcome(0, b"sample 0: fixed 0, vehicles 0, minutes 0, check yes\n", b""), run(["sample", "0"]))
        self.assertEqual(2, run([]).status)
