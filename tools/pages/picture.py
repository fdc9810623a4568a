"""The picture of the crates and of what each stands on, as SVG: rows by levels, with as few crossings as some sweeps find."""
from xml.sax.saxutils import escape

from pages.crates import crates, layers, levels, reduced

COLOURS = ["#d9e2ec", "#cfe8d5", "#fde2c4", "#d6e4ff", "#f6d5e0", "#e6dcf5", "#fff1b8", "#e2e2e2"]
ROW, HEIGHT, MARGIN = 86, 24, 20
SWEEPS = 24
Node = tuple[str, int]
"""A crate at its level, or where a line to it passes a level between."""


def width(name: str) -> float:
    """The width of a crate's box."""
    return 7.0 * len(name) + 14


def lines() -> list[list[Node]]:
    """For each edge of the reduced graph the nodes that its line passes, from the crate above down."""
    found = []
    for above, uses in reduced().items():
        for under in uses:
            between = [(f"{above} {under}", level) for level in range(levels()[above] - 1, levels()[under], -1)]
            found.append([(above, levels()[above]), *between, (under, levels()[under])])
    return found


def breadth(node: Node) -> float:
    """The width that a node takes in its row."""
    return width(node[0]) + 12 if node[0] in crates() else 10.0


def spread(row: list[Node], want: dict[Node, float]) -> dict[Node, float]:
    """The middles of the nodes of a row, near to where they want to be, and none over another."""
    places: list[float] = []
    for n, it in enumerate(row):
        left = places[-1] + (breadth(row[n - 1]) + breadth(it)) / 2 if n else want[it]
        places.append(max(want[it], left))
    # What was pushed to the right comes back by how far the row is off on the whole.
    off = sum(there - want[it] for there, it in zip(places, row)) / len(row)
    return {it: there - off for there, it in zip(places, row)}


def laid(rows: list[list[Node]], near: dict[Node, list[Node]]) -> dict[Node, float]:
    """Where the middle of each node is, from left to right: in the middle of its neighbours, as far as it can be."""
    at = {it: 100.0 * n for row in rows for n, it in enumerate(row)}
    for sweep in range(SWEEPS):
        for row in rows if sweep % 2 else rows[::-1]:
            want = {it: sum(at[other] for other in near[it]) / len(near[it]) for it in row}
            row.sort(key=lambda it: (want[it], it))
            at.update(spread(row, want))
    return at


def curve(points: list[tuple[float, float]]) -> str:
    """A smooth line down through points."""
    path = f"M{points[0][0]:.0f} {points[0][1]:.0f}"
    for (x, y), (to_x, to_y) in zip(points, points[1:]):
        half = (y + to_y) / 2
        path += f"C{x:.0f} {half:.0f} {to_x:.0f} {half:.0f} {to_x:.0f} {to_y:.0f}"
    return path


def picture() -> str:
    """The picture."""
    edges = lines()
    nodes = list(dict.fromkeys([(name, level) for name, level in levels().items()] + [it for edge in edges for it in edge]))
    near: dict[Node, list[Node]] = {it: [] for it in nodes}
    for edge in edges:
        for one, other in zip(edge, edge[1:]):
            near[one].append(other)
            near[other].append(one)
    top = max(levels().values())
    at = laid([[it for it in nodes if it[1] == level] for level in range(top + 1)], near)
    left = min(at[it] - breadth(it) / 2 for it in nodes) - MARGIN
    right = max(at[it] + breadth(it) / 2 for it in nodes) + MARGIN
    size_x, size_y = right - left, (top + 1) * ROW + 60

    def y(level: int) -> float:
        return 44 + (top - level) * ROW + HEIGHT / 2

    parts = [f'<svg xmlns="http://www.w3.org/2000/svg" viewBox="0 0 {size_x:.0f} {size_y:.0f}" font-family="sans-serif" '
             'font-size="12">',
             "<title>The crates, and what each stands on</title>", '<rect width="100%" height="100%" fill="#ffffff"/>']
    x = float(MARGIN)
    colour = {}
    for layer, fill in zip(layers(), COLOURS):
        parts.append(f'<rect x="{x:.0f}" y="10" width="14" height="14" fill="{fill}" stroke="#555"/>'
                     f'<text x="{x + 20:.0f}" y="21">{layer.name}</text>')
        x += 40 + 8 * len(layer.name)
        colour |= {crate.name: fill for crate in layer.crates}
    parts.append('<g fill="none" stroke="#7a8793" stroke-width="1">')
    for edge in edges:
        points = [(at[it] - left, y(it[1])) for it in edge]
        points[0] = points[0][0], points[0][1] + HEIGHT / 2
        points[-1] = points[-1][0], points[-1][1] - HEIGHT / 2
        parts.append(f'<path d="{curve(points)}"><title>{escape(edge[0][0])} stands on {escape(edge[-1][0])}</title></path>')
    parts.append("</g>")
    for name, level in levels().items():
        middle_x = at[name, level] - left
        parts.append(f'<rect x="{middle_x - width(name) / 2:.0f}" y="{y(level) - HEIGHT / 2:.0f}" width="{width(name):.0f}" '
                     f'height="{HEIGHT}" rx="4" fill="{colour[name]}" stroke="#555"/>'
                     f'<text x="{middle_x:.0f}" y="{y(level) + 4:.0f}" text-anchor="middle">{escape(name)}</text>')
    return "\n".join([*parts, "</svg>"]) + "\n"
