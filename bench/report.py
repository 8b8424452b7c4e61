"""Makes the table and the picture from what was counted. Usage: report.py COUNTS TOOLS RESULTS PICTURE"""

import math
import sys

QUESTIONS = [("smallest_x", "smallest x"), ("largest_x", "largest x"), ("smallest_y", "smallest y"), ("listing", "listing")]
CHANGES = ("changes", "delete + insert")
PROGRAMS = ["library", "tree", "checked", "list"]
TREES = PROGRAMS[:3]
# at every n: instructions a slot of the check, and times the Rust tree of what is beyond the check; an inserted pair goes down from the root
MOST_A_SLOT = 110
MOST_TIMES = [("smallest_x", "smallest x", 1.15), ("changes", "delete and insert", 1.30)]

HEAD = """\
Instructions of x86-64 for one call, over full pools of random strips (bench/README.md says what the programs are).

Counted by qemu-x86_64 with a plugin that adds up the instructions of every block that runs (bench/icount.c), one program at a
time: a run of two rounds of the same {calls} calls less a run of one round, divided by {calls}. Start-up and set-up are the
same in both and fall away. The loop that makes the calls, counted with calls that do nothing, is taken off. The programs gave
the same answers, and the trees the same visits and the same cells.

Strips from a random slot to a random slot (0 to 65535) with a random number, seed 1985 + n. Smallest x: first to end at a
random slot. Largest x: last to end at a random slot, no later than another. Smallest y: earliest start among the ends in up to
4,096 slots from a random one. Listing: the strips that cover a slot near one end of the day, at most 16. A delete and an insert
of the same pair are counted together.

Rust: opt-level 3, lto, panic=abort, one codegen unit, no target features. Tools:
{tools}
"""


class Counts:
    """What was counted, by n, kind and program."""

    def __init__(self, path):
        self.runs = {}
        with open(path, encoding="ascii") as lines:
            for line in lines:
                n, kind, program, rounds, *said = line.split()
                numbers = dict(zip(said[::2], said[1::2]))
                self.runs[int(n), kind, program, int(rounds)] = numbers
        self.sizes = sorted({key[0] for key in self.runs})
        self.calls = int(next(iter(self.runs.values()))["calls"])
        self.hold_answers()

    def hold_answers(self):
        """A program that answers otherwise is not measured."""
        for (n, kind, program, rounds), said in self.runs.items():
            library = self.runs[n, kind, "library", rounds]
            if program in PROGRAMS and said["answers"] != library["answers"]:
                sys.exit(f"report: {program} answers otherwise: {kind}, n = {n}")
            if program in TREES and said["visits"] != library["visits"]:
                sys.exit(f"report: {program} has other visits: {kind}, n = {n}")

    def gained(self, n, kind, program, what):
        """What the second round adds, for a call."""
        one, two = (int(self.runs[n, kind, program, rounds][what]) for rounds in (1, 2))
        return (two - one) / self.calls

    def cost(self, n, kind, program):
        return self.gained(n, kind, program, "instructions") - self.gained(n, kind, "idle", "instructions")

    def beyond(self, n, kind, program):
        """What a call costs beyond the check of the same pool."""
        if program == "tree":
            return self.cost(n, kind, program)
        check = "changes_check" if kind == CHANGES[0] else "check"
        return self.cost(n, kind, program) - self.cost(n, check, program)

    def visits(self, n, kind):
        return self.gained(n, kind, "library", "visits")

    def times(self, n, kind):
        """What the library needs beyond the check, as so many times the Rust tree."""
        return self.beyond(n, kind, "library") / self.cost(n, kind, "tree")


def row(name, cells, width=16):
    return f"  {name:<{width}}" + "".join(f"{cell:>12}" for cell in cells)


def whole(number):
    return f"{number:,.0f}"


def table(counts, n):
    """One table for each n."""
    yield f"n = {n}"
    yield row("", ["visits", "library", "beyond", "Rust tree", "Rust tree", "beyond", "plain", "beyond /"])
    yield row("", ["", "", "its check", "no check", "with check", "its check", "list", "Rust tree"])
    yield row("check", ["", whole(counts.cost(n, "check", "library")), "", "", whole(counts.cost(n, "check", "checked"))])
    for kind, name in QUESTIONS + [CHANGES]:
        visits = "" if kind == CHANGES[0] else f"{counts.visits(n, kind):.1f}"
        cells = [counts.cost(n, kind, "library"), counts.beyond(n, kind, "library"), counts.cost(n, kind, "tree")]
        cells += [counts.cost(n, kind, "checked"), counts.beyond(n, kind, "checked"), counts.cost(n, kind, "list")]
        yield row(name, [visits] + [whole(cell) for cell in cells] + [f"{counts.times(n, kind):.2f}"])
    yield ""


def small_tables(counts):
    """The check by the slot, and the questions by the visit."""
    heads = [f"n = {n}" for n in counts.sizes]
    yield "The check, a slot"
    yield row("", heads, 36)
    for program, by in (("library", "library"), ("checked", "Rust tree with check")):
        yield row(by, [f"{counts.cost(n, 'check', program) / n:.1f}" for n in counts.sizes], 36)
    yield ""
    yield "The questions beyond the check, a visit"
    yield row("", heads, 36)
    for kind, name in QUESTIONS:
        for program, by in (("library", "library"), ("tree", "Rust tree"), ("checked", "Rust tree with check")):
            cells = [f"{counts.beyond(n, kind, program) / counts.visits(n, kind):.1f}" for n in counts.sizes]
            yield row(f"{name:<14}{by}", cells, 36)
    yield ""


def limit(what, numbers, most):
    """A limit and, for each n, the number that it is about and whether it is met."""
    yield f"  {what}, at most {most:.2f}"
    for n, number in numbers:
        yield f"    n = {n}: {number:.2f}, {'met' if number <= most else 'missed'}"


def limits(counts):
    """The agreed limits, at every n."""
    yield "Limits"
    yield from limit("check, instructions a slot", [(n, counts.cost(n, "check", "library") / n) for n in counts.sizes], MOST_A_SLOT)
    for kind, name, most in MOST_TIMES:
        times = [(n, counts.times(n, kind)) for n in counts.sizes]
        yield from limit(f"{name} beyond the check, times the Rust tree without a check", times, most)


# ---- the picture: two panels with logarithmic axes, a line for each program, told apart by marks and dashes as well as by colour

PANEL = 380, 360
LEFT, TOP, GAP = 95, 60, 90
LINES = [
    ("library", "library, with its check", "#1b4f9c", "", "disc"),
    ("beyond", "library, beyond its check", "#1b4f9c", "6 4", "ring"),
    ("checked", "Rust tree, with a check", "#b3541e", "", "square"),
    ("tree", "Rust tree, no check", "#b3541e", "2 3", "frame"),
    ("list", "plain list", "#3c7a3c", "10 3 2 3", "cross"),
]


class Axes:
    """Where a panel's numbers stand."""

    def __init__(self, number, sizes, costs):
        self.x = LEFT + number * (PANEL[0] + GAP)
        self.sizes = sizes
        self.low = math.floor(math.log10(min(costs)))
        self.high = math.ceil(math.log10(max(costs)))

    def across(self, n):
        first, last = math.log10(self.sizes[0]), math.log10(self.sizes[-1])
        return self.x + 20 + (math.log10(n) - first) / (last - first) * (PANEL[0] - 40)

    def up(self, cost):
        return TOP + PANEL[1] * (self.high - math.log10(cost)) / (self.high - self.low)


def text(x, y, words, anchor="middle", size=13, more=""):
    return f'<text x="{x:.1f}" y="{y:.1f}" text-anchor="{anchor}" font-size="{size}"{more}>{words}</text>'


def mark(shape, x, y, colour):
    hollow = f'fill="white" stroke="{colour}" stroke-width="2"'
    if shape in ("disc", "ring"):
        return f'<circle cx="{x:.1f}" cy="{y:.1f}" r="4.5" ' + (hollow if shape == "ring" else f'fill="{colour}"') + "/>"
    if shape in ("square", "frame"):
        fill = hollow if shape == "frame" else f'fill="{colour}"'
        return f'<rect x="{x - 4.5:.1f}" y="{y - 4.5:.1f}" width="9" height="9" {fill}/>'
    path = f"M{x - 4.5:.1f} {y - 4.5:.1f}l9 9m0 -9l-9 9"
    return f'<path d="{path}" stroke="{colour}" stroke-width="2" fill="none"/>'


def frame(axes, title):
    """A panel's box, its ticks and its names."""
    yield text(axes.x + PANEL[0] / 2, TOP - 18, title, size=15)
    yield f'<rect x="{axes.x}" y="{TOP}" width="{PANEL[0]}" height="{PANEL[1]}" fill="none" stroke="#444"/>'
    for power in range(axes.low, axes.high + 1):
        y = axes.up(10**power)
        yield f'<line x1="{axes.x}" x2="{axes.x + PANEL[0]}" y1="{y:.1f}" y2="{y:.1f}" stroke="#ddd"/>'
        yield text(axes.x - 6, y + 4, f"{10**power:,}", "end", 12)
    for n in axes.sizes:
        x = axes.across(n)
        yield f'<line x1="{x:.1f}" x2="{x:.1f}" y1="{TOP + PANEL[1]}" y2="{TOP + PANEL[1] + 5}" stroke="#444"/>'
        yield text(x, TOP + PANEL[1] + 20, n, size=12)
    yield text(axes.x + PANEL[0] / 2, TOP + PANEL[1] + 42, "n, the slots of a full pool (logarithmic)")


def line(places, colour, dashes, shape):
    points = " ".join(f"{x:.1f},{y:.1f}" for x, y in places)
    yield f'<polyline points="{points}" fill="none" stroke="{colour}" stroke-width="2" stroke-dasharray="{dashes or "none"}"/>'
    for x, y in places:
        yield mark(shape, x, y, colour)


def panel(counts, number, kind, title):
    costs = {}
    for program, *_ in LINES:
        of = counts.beyond if program == "beyond" else counts.cost
        by = "library" if program == "beyond" else program
        costs[program] = [of(n, kind, by) for n in counts.sizes]
    axes = Axes(number, counts.sizes, [cost for line_costs in costs.values() for cost in line_costs])
    yield from frame(axes, title)
    for program, _, colour, dashes, shape in LINES:
        places = [(axes.across(n), axes.up(cost)) for n, cost in zip(counts.sizes, costs[program])]
        yield from line(places, colour, dashes, shape)


def legend(top):
    for i, (_, name, colour, dashes, shape) in enumerate(LINES):
        x, y = LEFT + i % 3 * 290, top + i // 3 * 24
        yield from line([(x, y), (x + 44, y)], colour, dashes, shape)
        yield text(x + 54, y + 4, name, "start")


def picture(counts):
    width, height = LEFT + 2 * PANEL[0] + GAP + 30, TOP + PANEL[1] + 120
    yield f'<svg xmlns="http://www.w3.org/2000/svg" viewBox="0 0 {width} {height}" width="{width}" height="{height}" font-family="sans-serif">'
    yield "<title>What a call costs, against the slots of the pool</title>"
    yield f'<rect width="{width}" height="{height}" fill="white"/>'
    y = TOP + PANEL[1] / 2
    yield text(18, y, "instructions (logarithmic)", more=f' transform="rotate(-90 18 {y:.0f})"')
    yield from panel(counts, 0, "smallest_x", "A question: smallest x (first to end)")
    yield from panel(counts, 1, "changes", "Two changes: a delete and an insert")
    yield from legend(TOP + PANEL[1] + 74)
    yield "</svg>"


def main():
    counts_path, tools_path, results_path, picture_path = sys.argv[1:]
    counts = Counts(counts_path)
    with open(tools_path, encoding="utf-8") as lines:
        tools = "".join(f"  {tool}" for tool in lines).rstrip()
    results = [HEAD.format(calls=counts.calls, tools=tools)]
    for n in counts.sizes:
        results += table(counts, n)
    results += [*small_tables(counts), *limits(counts)]
    with open(results_path, "w", encoding="utf-8") as out:
        out.write("\n".join(results) + "\n")
    with open(picture_path, "w", encoding="utf-8") as out:
        out.write("\n".join(picture(counts)) + "\n")


main()
