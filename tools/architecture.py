#!/usr/bin/env python3
"""Draws docs/architecture.svg: the crates as boxes in their layers, the uses between crates, and the data that flows between the layers.

Usage: tools/architecture.py           writes the file
       tools/architecture.py --check   exits with 1 if the file is not what this would draw (tools/pages.py checks the same)

The uses are those of crates.txt, the layers those of the table "The crates" in docs/ARCHITECTURE.md, in its order. A use is drawn if it stays within a row or
leads to the next one, does not follow from other uses, and would not pass behind another box. ROWS has the layers of each row; FLOWS and OUTSIDE have the
data flows."""
import re
import sys
from pathlib import Path

TOP = Path(__file__).resolve().parent.parent
PICTURE = "docs/architecture.svg"
ROWS = (("The program",), ("Jobs",), ("Front ends",), ("The office", "An audit"), ("CRLs, OCSP, signers", "The store"), ("Bytes", "The model"))
LEVELS = {"CRLs, OCSP, signers": 2, "The store": 3, "The model": 2}  # lines of boxes in a layer, if not one
# For each pair of arrows the row above it, its x, on which side its text is, what flows down, and what flows up.
FLOWS = (
    (2, 470, "right", "commands, queries, OCSP requests", "replies, CRLs, OCSP answers"),
    (3, 488, "left", "changes", "rows"),
    (4, 812, "left", "SQL", "rows"),
)
# For each box beside a row the row, a title, what flows into the row, and what flows out of it.
OUTSIDE = (
    (0, "Operator", "command line", "exit status"),
    (2, "Clients", "HTTP requests, lines", "responses, replies"),
    (4, "Signer", "signatures", "messages to sign"),
)
WIDTH, MARGIN, LEFT, RIGHT = 900, 12, 186, 888
BOX, BOX_HEIGHT, STEP, TITLE, PAD = 130, 24, 46, 19, 11
GAP, NARROW_GAP = 48, 34
# The classes are the first letters of middle, end, bold, heading, name; flow, layer, crate, outside; use, what flows.
STYLES = (
    "text{font:12.5px Arial,Helvetica,'Liberation Sans',sans-serif;fill:#1c2530}",
    ".m{text-anchor:middle}.e{text-anchor:end}.b{font-weight:bold}",
    ".h{paint-order:stroke;stroke:#f0f3f7;stroke-width:4px}.n{font-size:13px}",
    ".f{font-size:12px;fill:#0b5cad;paint-order:stroke;stroke:#fff;stroke-width:5px;stroke-linejoin:round}",
    ".l{fill:#f0f3f7;stroke:#c3ccd6}.c{fill:#fff;stroke:#5b6875}.o{fill:#fff;stroke:#0b5cad;stroke-dasharray:4 3}",
    ".u{fill:none;stroke:#8491a0;stroke-width:1.2;marker-end:url(#u)}.w{fill:none;stroke:#0b5cad;stroke-width:3;marker-end:url(#w)}",
)


def uses():
    """For each crate the crates of this repository that it uses, without those that follow from other uses."""
    lines = (line.split(":") for line in (TOP / "crates.txt").read_text(encoding="utf-8").splitlines() if line and not line.startswith("#"))
    direct = {name: [it for it in rest.split() if it.startswith("reg_")] for name, rest in lines}
    below = {}
    for name in direct:  # crates.txt has a crate after those that it uses
        below[name] = set(direct[name]).union(*(below[it] for it in direct[name]))
    return {name: [it for it in on if not any(it in below[other] for other in on)] for name, on in direct.items()}


def layers():
    """The crates of each layer, in the order of the table."""
    table = (TOP / "docs/ARCHITECTURE.md").read_text(encoding="utf-8").split("## The crates\n")[1].split("\n## ")[0]
    found, title = {}, ""
    for heading, crate in re.findall(r"^\| (?:\*\*(.*?)\*\*|`(reg_\w+)`) \|", table, re.MULTILINE):
        title = heading or title
        found.setdefault(title, []).extend([crate] if crate else [])
    return found


def checked(used, layer):
    """Checks that each crate has a layer and each layer a row, and that no crate uses one of a row above its own. Returns the row of each crate."""
    row = {it: number for number, titles in enumerate(ROWS) for title in titles for it in layer.get(title, [])}
    wrong = [f"no row for the layer {it}" for it in layer if not any(it in titles for titles in ROWS)]
    wrong += [f"{it} has no layer in the table of docs/ARCHITECTURE.md" for it in used if it not in row]
    wrong += [f"{it} is not in crates.txt" for it in row if it not in used]
    wrong = wrong or [f"{one}, of a row below, uses {it}" for one, on in used.items() for it in on if row[it] < row[one]]
    if wrong:
        sys.exit("\n".join(f"tools/architecture.py: {it}" for it in wrong))
    return row


def lines_of(crates, used, levels):
    """The crates of a layer in lines from top to bottom: a crate is above those that it uses, as far as there are lines."""
    height = {}
    for it in sorted(crates, key=list(used).index):
        height[it] = min(levels - 1, max((height[on] + 1 for on in used[it] if on in height), default=0))
    return [[it for it in crates if height[it] == level] for level in range(max(height.values()), -1, -1)]


def marker(name, size, colour):
    return (
        f'<marker id="{name}" markerWidth="{size}" markerHeight="{size}" refX="{size * 3 // 4}" refY="{size // 2}" orient="auto" '
        f'markerUnits="userSpaceOnUse"><path d="M0 0L{size} {size // 2}L0 {size}z" fill="{colour}"/></marker>'
    )


def rectangle(kind, x, y, width, height, round=5):
    return f'<rect class="{kind}" x="{x:.0f}" y="{y:.0f}" width="{width:.0f}" height="{height:.0f}" rx="{round}"/>'


def words(kind, x, y, text, more=""):
    return f'<text class="{kind}" x="{x:.0f}" y="{y:.0f}"{more}>{text}</text>'


class Drawing:
    def __init__(self):
        self.used, self.layer = uses(), layers()
        self.row = checked(self.used, self.layer)
        self.lines = {title: lines_of(crates, self.used, LEVELS.get(title, 1)) for title, crates in self.layer.items()}
        self.bands = {}
        y = MARGIN
        for number, titles in enumerate(ROWS):
            wide = [max(map(len, self.lines[it])) for it in titles]
            height = TITLE + (max(len(self.lines[it]) for it in titles) - 1) * STEP + BOX_HEIGHT + PAD
            x, spare = LEFT, RIGHT - LEFT - (144 if titles == ROWS[-1] else 0) - 10 * (len(titles) - 1)
            for title, part in zip(titles, wide, strict=True):
                self.bands[title] = (x, y, spare * part / sum(wide), height)
                x += spare * part / sum(wide) + 10
            y += height + (GAP if any(it[0] == number for it in FLOWS) else NARROW_GAP)
        self.height = y - NARROW_GAP + 40
        self.at = {}
        for title in self.lines:
            self.place(title)

    def place(self, title):
        """Spreads each line of boxes over its layer. A box that is alone in its line is above the one that it uses in the layer."""
        x, y, width, height = self.bands[title]
        lines = self.lines[title]
        top = y + TITLE + (height - TITLE - PAD - (len(lines) - 1) * STEP) / 2
        for number, crates in reversed([*enumerate(lines)]):
            for index, it in enumerate(crates):
                self.at[it] = (x + width * (index + 0.5) / len(crates), top + STEP * number)
            below = [on for on in self.used[crates[0]] if on in self.layer[title]]
            if len(crates) == len(below) == 1:
                self.at[crates[0]] = (self.at[below[0]][0], top + STEP * number)

    def ends(self, one, it):
        """The ends of a line from a box to one that it uses: at their sides if they are in one line, otherwise at the lower and the upper edge."""
        (x, y), (to_x, to_y) = self.at[one], self.at[it]
        if to_y - y < BOX_HEIGHT + 8:
            side = BOX / 2 if to_x > x else -BOX / 2
            return x + side, y, to_x - side, to_y
        return x, y + BOX_HEIGHT / 2, to_x + max(-62, min(62, (x - to_x) * 0.6)), to_y - BOX_HEIGHT / 2

    def is_clear(self, one, it):
        x, y, to_x, to_y = self.ends(one, it)
        points = [(x + (to_x - x) * part / 100, y + (to_y - y) * part / 100) for part in range(101)]
        others = [at for name, at in self.at.items() if name not in (one, it)]
        return not any(abs(at_x - p_x) < BOX / 2 and abs(at_y - p_y) < BOX_HEIGHT / 2 for at_x, at_y in others for p_x, p_y in points)

    def lines_drawn(self):
        near = [(one, it) for one, on in self.used.items() for it in on if self.row[it] - self.row[one] <= 1]
        return [self.ends(*pair) for pair in near if self.is_clear(*pair)]

    def svg(self):
        out = [
            f'<svg xmlns="http://www.w3.org/2000/svg" viewBox="0 0 {WIDTH} {self.height:.0f}" width="{WIDTH}" height="{self.height:.0f}"',
            'role="img" aria-labelledby="t d">',
            '<title id="t">The crates of Durshavon in layers, and what flows between them</title>',
            f'<desc id="d">From top to bottom: {"; ".join(" beside ".join(titles) for titles in ROWS)}. Drawn by tools/architecture.py.</desc>',
            f"<style>{''.join(STYLES)}</style>",
            f"<defs>{marker('u', 8, '#8491a0')}{marker('w', 12, '#0b5cad')}</defs>",
            f'<rect x=".5" y=".5" width="{WIDTH - 1}" height="{self.height - 1:.0f}" rx="8" fill="#fff" stroke="#c3ccd6"/>',
        ]
        out += [rectangle("l", *band) for band in self.bands.values()]
        out += [f'<path class="u" d="M{x:.0f} {y:.0f}L{to_x:.0f} {to_y:.0f}"/>' for x, y, to_x, to_y in self.lines_drawn()]
        out += [words("b h", x + 9, y + 14, title) for title, (x, y, _, _) in self.bands.items()]
        for it, (x, y) in self.at.items():
            out.append(rectangle("c", x - BOX / 2, y - BOX_HEIGHT / 2, BOX, BOX_HEIGHT, 3))
            out.append(words("n m", x, y + 4, it, ' textLength="120" lengthAdjust="spacingAndGlyphs"' if len(it) > 18 else ""))
        return "\n".join([*out, *self.flows(), *self.outside(), *self.legend(), "</svg>", ""])

    def flows(self):
        for row, x, side, down, up in FLOWS:
            _, y, _, height = self.bands[ROWS[row][-1]]
            top = y + height
            yield f'<path class="w" d="M{x - 6} {top + 2:.0f}V{top + GAP - 3:.0f}"/><path class="w" d="M{x + 6} {top + GAP - 2:.0f}V{top + 3:.0f}"/>'
            kind, at = ("f", x + 18) if side == "right" else ("f e", x - 18)
            yield words(kind, at, top + 20, f"\u2193 {down}") + words(kind, at, top + 37, f"\u2191 {up}")

    def outside(self):
        for row, title, into, back in OUTSIDE:
            _, y, _, height = self.bands[ROWS[row][0]]
            top, x = y + height / 2 - 27, MARGIN + 8
            yield rectangle("o", MARGIN, top, 136, 54) + words("b", x, top + 15, title) + words("f", x, top + 31, into) + words("f", x, top + 47, back)
            yield f'<path class="w" d="M{MARGIN + 138} {top + 27:.0f}H{LEFT - 3}"/><path class="w" d="M{LEFT - 1} {top + 43:.0f}H{MARGIN + 140}"/>'
        _, y, _, height = self.bands[ROWS[-1][0]]
        yield rectangle("o", RIGHT - 134, y, 134, height)
        yield words("b m", RIGHT - 67, y + height / 2 - 4, "crate sqlite") + words("m", RIGHT - 67, y + height / 2 + 16, "ca.db, ca.db-wal")

    def legend(self):
        y = self.height - 14
        yield f'<path class="u" d="M16 {y - 4:.0f}h28"/>' + words("", 52, y, "uses (within a row, or of the next one; docs/ARCHITECTURE.md has all uses)")
        yield f'<path class="w" d="M574 {y - 4:.0f}h28"/>' + words("", 611, y, "what flows")
        yield rectangle("o", 700, y - 13, 28, 16, 3) + words("", 736, y, "outside this repository")


def drawing():
    return Drawing().svg()


def is_drawn():
    path = TOP / PICTURE
    return path.exists() and path.read_text(encoding="utf-8") == drawing()


if __name__ == "__main__":
    if sys.argv[1:] == ["--check"]:
        if not is_drawn():
            sys.exit(f"{PICTURE} is not what tools/architecture.py draws: run it, and commit the file")
    elif sys.argv[1:]:
        sys.exit(__doc__)
    else:
        (TOP / PICTURE).write_text(drawing(), encoding="utf-8")
