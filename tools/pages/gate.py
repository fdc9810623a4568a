"""The table of what the gate costs, from docs/gate.csv, which tools/gate_times writes."""
import csv

from pages.crates import ROOT, crates
from pages.page import begun, table

TIMES = ROOT / "docs" / "gate.csv"
STEPS = ("proof", "tests", "edits")
FOLDERS = ("must-fail", "edits")
INTRO = """It shows what each crate took of the processor, in seconds, when `tools/gate_times --from-nothing --to docs/gate.csv` was
last run: the proof of the crate, that of its tests, and its must-fail edits. The last two columns are of today: how many edits
the gate tries, and how many `tools/try_edits` tries beside it.
"""


def edits_in(folder: str, *names: str) -> str:
    """How many edits crates with these names have in a folder, or nothing where they have none."""
    return str(sum(len(list((ROOT / "crates" / name / folder).glob("*.edit"))) for name in names) or "")


def gate() -> str:
    """The page."""
    lines = TIMES.read_text().splitlines()
    when = [line.removeprefix("# ") for line in lines if line.startswith("#")]
    taken = {row["crate"]: [int(row[step]) for step in STEPS] for row in csv.DictReader(line for line in lines if line[:1] != "#")}
    rows = []
    for crate in crates():
        seconds = [f"{it:,}" for it in taken[crate]] if crate in taken else ["not measured", "", ""]
        rows.append((f"`{crate}`", *seconds, *(edits_in(folder, crate) for folder in FOLDERS)))
    gone = sorted(set(taken) - set(crates()))
    sums = [sum(taken[crate][n] for crate in taken) for n in range(len(STEPS))]
    rows.append(("all", *(f"{it:,}" for it in sums), *(edits_in(folder, *crates()) for folder in FOLDERS)))
    text = f"\nThat is {sum(sums) / 60:.0f} minutes of processor. {' '.join(when)}\n"
    if gone:
        text += f"\nNo longer there, and still in the sums: {', '.join(f'`{it}`' for it in gone)}.\n"
    return begun("The gate", INTRO) + "\n" + table(("Crate", "Proof", "Tests", "Edits", "In the gate", "Beside it"), rows) + text
