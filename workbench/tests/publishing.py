"""What the tests of published feeds share."""
from __future__ import annotations

from tests.feeds import FolderTest


class PublishingTest(FolderTest):
    """A test of the zip of a town."""

    def setUp(self) -> None:
        super().setUp()
        self.town, self.out = self.room / "town", self.room / "out.zip"

    def publish(self, *words: str) -> tuple[int, str, str]:
        """Runs the command."""
        return self.desk("publish", self.town, self.out, *words)

    def refused(self, words: str) -> None:
        """Nothing is written, for this reason."""
        status, text, errors = self.publish()
        self.assertEqual((status, text, self.out.exists()), (1, "", False), errors)
        self.assertIn(words, errors)
