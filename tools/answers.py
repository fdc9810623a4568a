"""What the program's answers keep, whatever it is handed. tools/hostile asks.

`ask` runs a command on a folder. `wrong_with` judges that run by itself: its status, its text, standard error and what it left in
the folder. `disagreements` runs all commands on a folder and its copies, and compares what they say. The rules are those of
docs/FORMATS.md and docs/PROMISES.md.
"""
import contextlib
import csv
import dataclasses
import os
import pathlib
import re
import select
import shutil
import signal
import sqlite3
import stat
import subprocess
import sys
import tempfile
from collections.abc import Callable
from typing import IO, Any

# The files that each command writes.
COMMANDS = {"deficits": [], "fixed": [], "blocks": ["blocks.csv", "prices.csv"], "check": [],
            "write": ["trips_blocks.txt", "stop_times_blocks.txt"], "chart": [], "chains": [], "shifts": [], "joined": ["boards.csv"],
            "planners": [], "audit": [], "keep": ["journal.db"], "kept": ["edits.csv", "journal.db"]}
# Those that put the first refusal of the feed alone, if there is one.
OF_A_FEED = [command for command in COMMANDS if command not in ("keep", "kept")]
# The database and its log. Of the two only the lines count.
JOURNAL = ("journal.db", "journal.db-wal")
# A file that the program makes beside the one that it writes, and that a killed run may leave. `FILE` is the name of that one.
BESIDE = r"\.FILE\.\d+"
MOST_SECONDS, MOST_MIB = 60, 6000

# The line of standard error with each status. Where there is none, nothing is put there.
FAULTS = {5: b"blockdesk: read fault\n", 6: b"blockdesk: write fault\n", 7: b"blockdesk: keeper fault\n", 8: b"blockdesk: out of memory\n"}
# The last line of each text with status 0 or 1. A name may stand in that of a chart.
NUMBERS = rb"fixed \d+, vehicles \d+, minutes \d+"
LAST = {"deficits": rb"sum \d+", "fixed": rb"fixed \d+", "blocks": NUMBERS, "check": rb"yes, vehicles \d+, minutes \d+",
        "write": rb"wrote trips_blocks\.txt, stop_times_blocks\.txt", "chart": rb".*", "chains": rb"chains \d+, sum \d+",
        "shifts": rb"shifts \d+, sum \d+", "joined": rb"sum \d+, blocks \d+", "planners": NUMBERS,
        "audit": rb"least|above by \d+ (vehicles|minutes)", "keep": rb"kept \d+ records", "kept": rb"kept \d+ records"}

Standing = dict[str, Any]
"""What stands in a folder: of each file its bytes, or its size where it is large; of the journal its lines; of all else what it is."""
Table = list[list[str]]
"""The fields of each record, the header first."""


@dataclasses.dataclass(frozen=True)
class Answer:
    """How a run ended, what it put, and what stood in the folder before and stands there then. A text is None where nobody saw it."""

    command: str
    status: int
    text: bytes | None
    errors: bytes
    before: Standing
    after: Standing
    peak: int
    late: bool

    def last(self) -> bytes:
        """The last line of the text, without its line end."""
        return (self.text or b"").removesuffix(b"\n").rpartition(b"\n")[2]

    def numbers(self) -> list[int]:
        """The numbers of the last line."""
        return [int(number) for number in re.findall(rb"\d+", self.last())]

    def changed(self) -> list[str]:
        """The names of what stands otherwise than before."""
        return sorted(name for name in self.before.keys() | self.after.keys() if self.before.get(name) != self.after.get(name))

    def own(self) -> Standing:
        """Those of the command's files that stand then."""
        return {name: self.after[name] for name in COMMANDS[self.command] if name in self.after}


def kept_lines(folder: pathlib.Path) -> Any:
    """The lines of a folder's journal, or none where it has no table yet; its bytes where it is no database. A copy is looked at,
    since a look may change a database."""
    with tempfile.TemporaryDirectory() as room:
        for name in JOURNAL:
            with contextlib.suppress(OSError):
                shutil.copyfile(folder / name, pathlib.Path(room) / name)
        try:
            with contextlib.closing(sqlite3.connect(pathlib.Path(room) / "journal.db")) as database:
                return [line for (line,) in database.execute("SELECT line FROM journal ORDER BY seq")]
        except sqlite3.OperationalError:
            return []
        except sqlite3.Error:
            return (folder / "journal.db").read_bytes()


def standing(folder: pathlib.Path) -> Standing:
    """What stands in a folder. A journal without lines is as none."""
    def seen(path: pathlib.Path) -> Any:
        is_ = path.lstat()
        if not stat.S_ISREG(is_.st_mode):
            return stat.S_IFMT(is_.st_mode)
        if path.name == "journal.db":
            return kept_lines(path.parent)
        try:
            return is_.st_size if is_.st_size > 2 ** 20 else path.read_bytes()
        except PermissionError:
            return is_.st_size
    found = {str(path.relative_to(folder)): seen(path) for path in folder.rglob("*") if path.name not in JOURNAL[1:]}
    return {name: is_ for name, is_ in found.items() if is_ != []}


def ends_within(process: int, seconds: float) -> bool:
    """Whether a child ends within so many seconds."""
    handle = os.pidfd_open(process)
    try:
        return bool(select.select([handle], [], [], seconds)[0])
    finally:
        os.close(handle)


def ask(words: list, folder: pathlib.Path, command: str, out: IO[bytes] | None = None, during: Callable[[], None] | None = None,
        user: int | None = None, begin: Callable[[], None] | None = None, **more: Any) -> Answer:
    """Runs a command on a folder: with standard output as it is given, while something else is done, as somebody else, and after a
    call in the new process."""
    before = standing(folder)
    with tempfile.TemporaryFile() as text, tempfile.TemporaryFile() as errors:
        child = subprocess.Popen([*words, command, folder], stdin=subprocess.DEVNULL, stdout=out or text, stderr=errors, user=user,
                                 group=user, extra_groups=None if user is None else [], preexec_fn=begin, start_new_session=True, **more)
        if during:
            during()
        late = not ends_within(child.pid, MOST_SECONDS)
        if late:
            os.killpg(child.pid, signal.SIGKILL)
        # (the memory of this child alone)
        _, status, used = os.wait4(child.pid, 0)
        child.returncode = os.waitstatus_to_exitcode(status)
        text.seek(0)
        errors.seek(0)
        return Answer(command, child.returncode, None if out else text.read(), errors.read(), before, standing(folder),
                      used.ru_maxrss // 1024, late)


def left_beside(command: str, name: str) -> bool:
    """Whether a killed run of a command may leave a file of this name beside its own."""
    return any(re.fullmatch(BESIDE.replace("FILE", re.escape(file)), name) for file in COMMANDS[command] if file != "journal.db")


def half_done(command: str, before: Standing, whole: Standing, after: Standing) -> list[str]:
    """What is wrong with a folder in which a run of a command was killed or met a fault: each file is as before or whole."""
    wrong = []
    for name in sorted(before.keys() | after.keys()):
        is_ = after.get(name)
        as_whole = name in COMMANDS[command] and is_ == whole.get(name)
        if not (is_ == before.get(name) or as_whole or left_beside(command, name)):
            wrong.append(f"{name} is neither as before nor whole")
    return wrong


def statuses_of(command: str) -> set[int]:
    """The statuses that a command may end with."""
    return {0, 3, 5, 6, 8} | ({1} if command not in ("check", "kept") else set()) | ({4} if command in ("check", "audit") else set()) \
        | ({7} if command in ("keep", "kept") else set())


def wrong_with_text(answer: Answer) -> list[str]:
    """What is wrong with the text of a run, which somebody saw."""
    text, status = answer.text or b"", answer.status
    if status in (5, 7, 8):
        return ["it puts a text after a fault"] if text else []
    if status == 6:
        return []
    wrong = [] if text.endswith(b"\n") else ["its text has no line end"]
    if status == 3 and not text.startswith(b"feed refused: "):
        wrong.append("it refuses the feed without a line of that")
    if status == 4 and not (b"\n" + text).count(b"\nno: "):
        wrong.append("it says no without a line of that")
    if status in (0, 1) and not re.fullmatch(LAST[answer.command], answer.last(), re.DOTALL):
        wrong.append(f"its last line is {answer.last()!r}")
    return wrong


def wrong_with(answer: Answer, others: tuple[str, ...] = ()) -> list[str]:
    """What is wrong with a run. Other files than its own may change where something else changes them meanwhile."""
    command, status = answer.command, answer.status
    wrong = [f"it ran for {MOST_SECONDS} seconds"] if answer.late else []
    if status not in statuses_of(command):
        wrong.append(f"status {status}")
    if answer.errors != FAULTS.get(status, b""):
        wrong.append(f"standard error with status {status} is {answer.errors[:200]!r}")
    if answer.text is not None:
        wrong += wrong_with_text(answer)
    may = COMMANDS[command] if status in (0, 1, 6, 8) else []
    wrong += [f"{name} changed with status {status}" for name in answer.changed() if name not in (*may, *others)]
    if status in (0, 1):
        wrong += [f"{name} was not written" for name in COMMANDS[command] if name not in answer.after and name != "journal.db"]
    if answer.peak > MOST_MIB:
        wrong.append(f"a peak of {answer.peak} MiB")
    return wrong


def table(path: pathlib.Path) -> Table:
    """The records of a file."""
    csv.field_size_limit(sys.maxsize)
    with open(path, newline="", encoding="utf-8", errors="surrogateescape") as file:
        return [row for row in csv.reader(file) if row]


def put_table(path: pathlib.Path, rows: Table) -> None:
    """Writes records to a file."""
    with open(path, "w", newline="", encoding="utf-8", errors="surrogateescape") as file:
        csv.writer(file, lineterminator="\n").writerows(rows)


def column(rows: Table, name: str) -> list[str]:
    """The fields of a column, the first of its name."""
    names = [it.strip(" ").removeprefix("\ufeff") for it in rows[0]]
    return [row[names.index(name)] for row in rows[1:]]


def extra_trips(folder: pathlib.Path) -> set[str]:
    """The trips that the script of a folder adds, or tries to add."""
    path = folder / "edits.csv"
    rows = table(path) if path.is_file() else []
    return {row[1] for row in rows if len(row) > 1 and row[0].removeprefix("\ufeff").strip(" ") == "extra"}


def copied(folder: pathlib.Path, place: pathlib.Path, *without: str) -> pathlib.Path:
    """A copy of a folder, without some files."""
    shutil.copytree(folder, place, ignore=shutil.ignore_patterns(*without, *JOURNAL))
    return place


def wrong_files(folder: pathlib.Path, numbers: list[int]) -> list[str]:
    """What is wrong with the files that `blocks`, `joined` and `write` have written into a folder, beside the last line of `blocks`."""
    _, vehicles, minutes = numbers
    blocks = table(folder / "blocks.csv")
    names, trips = column(blocks, "block_id"), column(blocks, "trip_id")
    empty = sum(int(deadhead) for deadhead in column(blocks, "deadhead"))
    wrong = [] if len(set(names)) == vehicles else [f"blocks.csv has {len(set(names))} blocks, and the text {vehicles}"]
    if empty > minutes or empty < minutes and not (folder / "depot.csv").exists():
        wrong.append(f"blocks.csv has {empty} empty minutes, and the text {minutes}")
    if len(set(trips)) < len(trips) or sorted(column(table(folder / "prices.csv"), "trip_id")) != sorted(trips):
        wrong.append("blocks.csv and prices.csv have not the same trips, each once")
    if (folder / "boards.csv").is_file():
        boards = table(folder / "boards.csv")
        runs = zip(column(boards, "block_id"), column(boards, "kind"), column(boards, "trip_id"))
        if [(block, trip) for block, kind, trip in runs if kind == "trip"] != list(zip(names, trips)):
            wrong.append("joined has other blocks")
    if (folder / "trips_blocks.txt").is_file():
        written = table(folder / "trips_blocks.txt")
        stated = set(zip(column(written, "trip_id"), column(written, "block_id")))
        known, added = {trip for trip, _ in stated}, extra_trips(folder)
        if any(trip not in added and (trip not in known or (trip, block) not in stated) for block, trip in zip(names, trips)):
            wrong.append("write has other blocks")
    return wrong


def wrong_sums(told: dict[str, Answer], has_rules: bool) -> list[str]:
    """What is wrong with the last lines of commands that were run on a folder whose feed is accepted. With rules of pairs the joined
    maxima may be fewer than the blocks."""
    fixed, vehicles, minutes = told["blocks"].numbers()
    lines = {command: answer.numbers() for command, answer in told.items() if answer.status in (0, 1)}
    joined = min(vehicles, *lines.get("joined", [])) if has_rules else vehicles
    wrong = [f"{command} says {told[command].last()!r}" for command, wanted in
             {"check": [vehicles, minutes], "fixed": [fixed], "deficits": [fixed], "joined": [joined, vehicles]}.items()
             if lines.get(command) != wanted]
    for command in ("chains", "shifts"):
        many, left = lines.get(command, [0, -1])
        if left < 0 or (many + left != fixed if command == "chains" else many + left > fixed or not many and left != fixed):
            wrong.append(f"{command} says {told[command].last()!r}, and fixed {fixed}")
    if "audit" in lines and f"least vehicles {vehicles}, minutes {minutes}".encode() not in (told["audit"].text or b"").split(b"\n"):
        wrong.append("audit has another least plan")
    return wrong


def wrong_copies(words: list, folder: pathlib.Path, room: pathlib.Path, told: dict[str, Answer]) -> list[str]:
    """What is wrong with answers on copies of a folder, whose feed is accepted, that have another claim, the blocks that `write`
    states, or the edits that `kept` gives back."""
    wrong: list[str] = []
    numbers, added = told["blocks"].numbers(), extra_trips(folder)

    def asked(place: pathlib.Path, command: str) -> Answer:
        answer = ask(words, place, command)
        wrong.extend(f"{command} on {place.name}: {it}" for it in wrong_with(answer))
        return answer

    place = copied(folder, room / "another claim")
    for name in ("blocks.csv", "prices.csv"):
        rows = table(place / name)
        if len(rows) > 1:
            put_table(place / name, rows[:-1])
            if asked(place, "check").status != 4:
                wrong.append(f"check says yes where {name} lacks a trip")
            shutil.copyfile(folder / name, place / name)
    place = copied(folder, room / "the blocks of write", "planner_edits.csv")
    if asked(place, "planners").numbers()[-3:] != numbers:
        wrong.append("planners has other numbers than blocks")
    if told["write"].status in (0, 1) and not added & set(column(table(folder / "blocks.csv"), "trip_id")):
        shutil.move(place / "trips_blocks.txt", place / "trips.txt")
        line = f"vehicles {numbers[1]}, minutes {numbers[2]}"
        if not (asked(place, "audit").text or b"").endswith(f"{line}\nleast {line}\nleast\n".encode()):
            wrong.append("audit finds the blocks of write not least")
    place = copied(folder, room / "kept edits")
    keep, kept = asked(place, "keep"), asked(place, "kept")
    if keep.status not in (0, 1) or kept.status or keep.last() != kept.last():
        wrong.append("kept has not what keep has kept")
    again = asked(place, "blocks")
    if again.status or again.numbers()[-3:] != numbers:
        wrong.append("the edits that were kept give other blocks")
    return wrong


def disagreements(words: list, folder: pathlib.Path, room: pathlib.Path) -> list[str]:
    """What is wrong with the answers of all commands on a folder, each by itself and together. The room is an empty folder."""
    asked = ["blocks", *(command for command in OF_A_FEED if command != "blocks")]
    told = {command: ask(words, folder, command) for command in asked}
    wrong = [f"{command}: {it}" for command, answer in told.items() for it in wrong_with(answer)]
    other = copied(folder, room / "an equal folder")
    for command in asked:
        answer, first = ask(words, other, command), told[command]
        if (answer.status, answer.text, answer.own()) != (first.status, first.text, first.own()):
            wrong.append(f"{command}: an equal folder gets another answer")
    blocks = told["blocks"]
    if blocks.status in (3, 5):
        wrong += [f"{command}: it does not refuse what blocks refuses" for command, answer in told.items()
                  if (answer.status, answer.text) != (blocks.status, blocks.text)]
    elif not wrong:
        wrong += wrong_files(folder, blocks.numbers()[-3:]) + wrong_sums(told, (folder / "pairs.csv").exists()) + wrong_copies(words, folder, room, told)
    return wrong
