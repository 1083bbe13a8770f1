"""Writes the tables of bench/README.md from the kept figures, each between a line `<!-- NAME -->`
and a line `<!-- end -->`."""
import os
import re

import figures
from measures import CANCELLED, CORE_OF, CRATE_OF, FAIR_OF, HELD, LIVE_OF, ORIGINAL_CORE, ORIGINAL_OF, R2D2_OF, SERVED, SIZES, THREADS, pair_of, round_of, settings_of
from programs import WIDTHS

README = os.path.join(os.path.dirname(os.path.abspath(__file__)), "README.md")
POOLS = (LIVE_OF, CRATE_OF, ORIGINAL_OF, R2D2_OF)
NAMES = {LIVE_OF: "this pool, in Rattle", CRATE_OF: "this pool, in Rust", ORIGINAL_OF: "bb8", R2D2_OF: "r2d2", CORE_OF: "the proved core",
         ORIGINAL_CORE: "bb8's core, with its lock", FAIR_OF: "in Rust, fair after 1 ms"}
# the rows: their words, and the part and what of the kept figures
COUNTED = (*(settings_of(is_default, wide) for is_default in (True, False) for wide in WIDTHS), "a pair, check off, no limits on ages",
           *(f"{what}, {at_once}" for what in (SERVED, CANCELLED) for at_once in ("16 at a time", "25,000 at once")))
PAIRS = (
    *((f"instructions: {what}" if what == COUNTED[0] else what, "instructions", what) for what in COUNTED),
    *((f"ns: {pair_of(count, size, is_default)}", "times", pair_of(count, size, is_default)) for is_default in (True, False) for count, size in THREADS),
    ("bytes: an idle connection, in full tables", "bytes", "an idle connection, tables full"),
    ("in tables that have just grown", "bytes", "an idle connection, tables just grown"),
    ("bytes: a waiting get, in full tables", "bytes", "a waiting get, tables full"),
    ("in tables that have just grown", "bytes", "a waiting get, tables just grown"),
    ("ns: from a return until the sleeping get returns", "wakes", "a return to the get that sleeps"),
)
LOADS = tuple((words, "loads", f"held for {held}") for words, held in zip(
    ("not held", "held for one yield", "held for 20 µs of computing", "held for a sleep of 1 ms"), HELD))
FLOOR = "the floor: lock, pop, unlock, lock, push, unlock"
ROUNDS = (*((what, "instructions", what) for what in (*map(round_of, SIZES), f"{SERVED}, 25,000 at once", "the cancellation of a waiting get")),
          ("a `Mutex` around a `VecDeque` of 10, for the same", "instructions", FLOOR))


def number(cell):
    return f"{float(cell):,.0f}" if re.fullmatch(r"[\d.]+", cell) else cell


def cell(parts, part, what, whose):
    """Returns a figure: of times the median, with the least; of wakes the median, with the 95th
    percentile."""
    found = figures.table(parts, part).get((what, whose))
    if not found:
        return ""
    if part == "times":
        return f"{number(found[1])} ({number(found[0])})"
    return f"{number(found[0])} ({number(found[1])})" if part == "wakes" else number(found[0])


def table(parts, rows, columns):
    lines = ["| | " + " | ".join(NAMES[whose] for whose in columns) + " |", "|---|" + "---|" * len(columns)]
    for words, part, what in rows:
        cells = [cell(parts, part, what, whose) for whose in columns]
        if any(cells):
            lines.append(f"| {words} | " + " | ".join(cells) + " |")
    return "\n".join(lines)


def readme(parts):
    """Returns the page with its tables as the kept figures have them."""
    with open(README, encoding="utf-8") as told:
        text = told.read()
    made = {"pools": table(parts, PAIRS, POOLS), "loads": table(parts, LOADS, (CRATE_OF, FAIR_OF, ORIGINAL_OF)), "core": table(parts, ROUNDS, (CORE_OF, ORIGINAL_CORE))}
    for name, lines in made.items():
        text = re.sub(rf"(<!-- {name} -->\n).*?(<!-- end -->)", lambda found, lines=lines: f"{found[1]}{lines}\n{found[2]}", text, flags=re.S)
    return text
