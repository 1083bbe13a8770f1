#!/usr/bin/env python3
"""Draws the kept figures, bench/figures.txt, as docs/*.svg, and writes them into the tables of
bench/README.md.

    bench/draw.py            draws and writes them
    bench/draw.py --check    says which picture or page is not of the kept figures; nothing is written
"""
import math
import os
import sys

sys.dont_write_bytecode = True

import figures
import tables
from measures import CORE_OF, CRATE_OF, FAIR_OF, LIVE_OF, ORIGINAL_OF, R2D2_OF, pair_of
from programs import TOP
from tables import NAMES

WIDTH, LEFT, RIGHT = 720, 60, 150
TITLE, TOP_OF, TALL, FOOT = 52, 72, 220, 58
# the colours in light and in dark, by whose the figure is
COLOURS = {CORE_OF: ("a", "#0969da", "#58a6ff"), LIVE_OF: ("a", "#0969da", "#58a6ff"), CRATE_OF: ("b", "#1a7f37", "#3fb950"),
           FAIR_OF: ("a", "#0969da", "#58a6ff"), ORIGINAL_OF: ("c", "#bc4c00", "#f0883e"), R2D2_OF: ("d", "#8250df", "#bc8cff")}
POOLS = (LIVE_OF, CRATE_OF, R2D2_OF, ORIGINAL_OF)


def style():
    light = "".join(f".{name}{{fill:{one}}}.l{name}{{stroke:{one}}}" for name, one, _ in sorted(set(COLOURS.values())))
    dark = "".join(f".{name}{{fill:{one}}}.l{name}{{stroke:{one}}}" for name, _, one in sorted(set(COLOURS.values())))
    return ("<style>text{font:13px sans-serif;fill:#1f2328}.t{font-size:16px;font-weight:600}.s{font-size:11px;fill:#59636e}"
            ".back{fill:#fff}.g{stroke:#d1d9e0}.l{fill:none;stroke-width:2.5}" + light
            + "@media(prefers-color-scheme:dark){text{fill:#e6edf3}.s{fill:#9198a1}.back{fill:#0d1117}.g{stroke:#3d444d}" + dark + "}</style>")


def text(x, y, words, kind="", anchor="start"):
    words = words.replace("&", "&amp;").replace("<", "&lt;")
    return f'<text x="{x:g}" y="{y:g}"' + (f' class="{kind}"' if kind else "") + ("" if anchor == "start" else f' text-anchor="{anchor}"') + f">{words}</text>"


def picture(tall, title, below, parts):
    """Returns a picture of this height, with a title, a line below it, and its parts."""
    head = f'<svg xmlns="http://www.w3.org/2000/svg" viewBox="0 0 {WIDTH} {tall}" width="{WIDTH}" height="{tall}" role="img">'
    lines = [head, f"<title>{title}</title>", style(), f'<rect class="back" width="{WIDTH}" height="{tall}"/>',
             text(16, 26, title, "t"), text(16, 44, below, "s"), *parts, "</svg>"]
    return "\n".join(lines) + "\n"


def bars(title, below, groups):
    """Draws horizontal bars in groups. A group has a name, and for each bar its pool and figure."""
    greatest = max(figure for _, each in groups for _, figure in each)
    parts, y = [], TITLE + 14
    for name, each in groups:
        parts.append(text(16, y + 10, name))
        y += 20
        for whose, figure in each:
            long = (WIDTH - LEFT - 190) * figure / greatest
            parts += [text(156, y + 13, NAMES[whose], "", "end"),
                      f'<rect class="{COLOURS[whose][0]}" x="164" y="{y}" width="{long:.1f}" height="18" rx="2"/>',
                      text(170 + long, y + 13, f"{figure:,.0f}")]
            y += 23
        y += 12
    return picture(y, title, below, parts)


def steps(greatest):
    """Returns the values of the grid lines: at most six round numbers."""
    unit = 10 ** math.floor(math.log10(greatest))
    unit = next(unit * by for by in (0.2, 0.5, 1, 2, 5) if greatest / (unit * by) <= 5.5)
    return [unit * at for at in range(math.ceil(greatest / unit) + 1)]


def apart(places):
    """Returns the same positions, each at least 16 below the one above it."""
    moved, last = {}, -math.inf
    for key in sorted(places, key=places.get):
        last = moved[key] = max(places[key], last + 16)
    return moved


def lines(title, below, across, up, marks, drawn):
    """Draws a line for each pool, with a figure for each mark. Marks are positions from 0 to 1 with
    names."""
    marks_up = steps(max(figure for each in drawn.values() for figure in each))
    foot, wide = TOP_OF + TALL, WIDTH - LEFT - RIGHT
    parts = [text(16, TOP_OF - 12, up, "s")]
    for mark in marks_up:
        y = foot - TALL * mark / marks_up[-1]
        parts += [f'<path class="g" d="M{LEFT} {y:.1f}H{LEFT + wide}"/>', text(LEFT - 8, y + 4, f"{mark:,g}", "s", "end")]
    parts += [text(LEFT + wide * place, foot + 18, name, "s", "middle") for place, name in marks if name]
    parts.append(text(LEFT + wide / 2, foot + 38, across, "s", "middle"))
    ends = {}
    for whose, each in drawn.items():
        at = [(LEFT + wide * place, foot - TALL * figure / marks_up[-1]) for (place, _), figure in zip(marks, each)]
        colour = COLOURS[whose][0]
        parts.append(f'<path class="l l{colour}" d="M' + "L".join(f"{x:.1f} {y:.1f}" for x, y in at) + '"/>')
        parts += [f'<circle class="{colour}" cx="{x:.1f}" cy="{y:.1f}" r="3.5"/>' for x, y in at]
        ends[whose] = at[-1][1] + 4
    for whose, y in apart(ends).items():
        parts += [f'<path class="g" d="M{LEFT + wide + 5} {ends[whose] - 4:.1f}L{LEFT + wide + 13} {y - 4:.1f}"/>',
                  text(LEFT + wide + 16, y, NAMES[whose], COLOURS[whose][0])]
    return picture(foot + FOOT, title, below, parts)


def figures_of(table, whats, whose, at=0):
    """Returns the figures of these, or None if one was not measured."""
    each = [table[(what, whose)][at] for what in whats if (what, whose) in table]
    return [float(one) for one in each] if len(each) == len(whats) else None


def drawn_of(table, whats, whom, by=lambda one: one):
    found = {whose: figures_of(table, whats, whose) for whose in whom}
    return {whose: [by(one) for one in each] for whose, each in found.items() if each}


def pair(parts):
    counts = figures.table(parts, "instructions")
    groups = [(words, [(whose, float(counts[(what, whose)][0])) for whose in POOLS if (what, whose) in counts])
              for what, words in (("a pair, check off", "Connections go out unchecked"),
                                  ("a pair, default settings", "Default settings: each is checked first, by a check that is ready at once (of r2d2 a plain call)"))]
    groups = [group for group in groups if group[1]]
    return groups and bars("A get and its return, in instructions", "One thread, counted by callgrind; less is better", groups)


def sized(table, name):
    """Returns the numbers in the names of these rows."""
    return sorted({int(what.removeprefix(name).replace(",", "")) for what, _ in table if what.startswith(name)})


def crowd(parts):
    table = figures.table(parts, "times")
    sizes = sized(table, "a crowd of ")
    drawn = drawn_of(table, [f"a crowd of {size:,}" for size in sizes], (CORE_OF, LIVE_OF, CRATE_OF, ORIGINAL_OF), lambda one: one / 1e6)
    # the picture has the core or the live pool: the core is left out if both were measured
    drawn = {whose: each for whose, each in drawn.items() if whose != CORE_OF or LIVE_OF not in drawn}
    return drawn and lines("A crowd that waits for one connection", "All wait and are served one by one, polled by hand in one thread; the best of nine runs; less is better",
                           "gets that wait", "milliseconds for all of them", [(size / sizes[-1], f"{size:,}") for size in sizes], drawn)


def threads(parts):
    table = figures.table(parts, "times")
    rows = {count: pair_of(count, 16, True) for count in (1, 2, 4, 8)}
    many = [count for count, row in rows.items() if any(what == row for what, _ in table)]
    drawn = drawn_of(table, [rows[count] for count in many], POOLS, lambda one: 1e3 / one)
    marks = [(at / max(len(many) - 1, 1), str(count)) for at, count in enumerate(many)]
    return drawn and lines("Gets and returns a second, by threads", "A pool of 16, default settings, the machine's clock; the best of nine runs; more is better; 1, 2, 4 and 8 stand evenly",
                           "threads that get and return without a pause", "million pairs a second", marks, drawn)


def shares(parts):
    """Draws the rounds of each task, the least first."""
    table = figures.table(parts, "shares")
    drawn = {whose: list(map(float, table[what, whose][1].split())) for what, whose in table}
    many = max(map(len, drawn.values()), default=0)
    marks = [(at / (many - 1), str(at + 1) if at % 8 == 7 or at == 0 else "") for at in range(many)]
    return drawn and lines(f"{many} tasks that share four connections for three seconds", "Each has a connection for a millisecond, gives it back and asks again; a level line is a fair one",
                           "tasks, from the one with the fewest rounds on", "rounds of a task", marks, drawn)


def drawings():
    """Returns the text of each picture and of the page with the tables, by its file."""
    parts = figures.read()
    made = {"pair": pair(parts), "crowd": crowd(parts), "threads": threads(parts), "shares": shares(parts)}
    return {os.path.join(TOP, "docs", f"{name}.svg"): drawn for name, drawn in made.items() if drawn} | {tables.README: tables.readme(parts)}


def write():
    for path, drawn in drawings().items():
        with open(path, "w", encoding="utf-8") as out:
            out.write(drawn)


def stale():
    """Returns the pictures and pages that differ from the kept figures."""
    for path, drawn in drawings().items():
        told = None
        if os.path.exists(path):
            with open(path, encoding="utf-8") as kept:
                told = kept.read()
        if told != drawn:
            yield os.path.relpath(path, TOP)


def main():
    if sys.argv[1:] == ["--check"]:
        others = list(stale())
        for path in others:
            print(f"{path} is not of bench/figures.txt; bench/draw.py writes it")
        sys.exit(1 if others else 0)
    write()


if __name__ == "__main__":
    main()
