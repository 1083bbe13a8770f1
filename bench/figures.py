"""The kept figures, bench/figures.txt: parts with notes and a table each, in plain text."""
import os

from measures import PART_OF

PATH = os.path.join(os.path.dirname(os.path.abspath(__file__)), "figures.txt")
HEAD = """What a get costs, beside other pools. `bench/compare.py` wrote this file; `bench/draw.py` draws docs/*.svg from it, and `bench/bar.py`
compares with it. bench/README.md explains each line.
"""
# the start of a note about one pool's figures, measured by an earlier run
EARLIER = "Figures of {}, not measured by this run: "


def read():
    """Returns each part's notes and rows, by the part's name. Empty if there is no file yet."""
    parts = {}
    if not os.path.exists(PATH):
        return parts
    with open(PATH, encoding="utf-8") as told:
        for line in told.read().splitlines():
            if line.startswith("== "):
                notes, rows = [], []
                parts[line.strip("= ")] = (notes, rows)
            elif parts and " | " in line:
                rows.append([cell.strip() for cell in line.split(" | ")])
            elif parts and line:
                notes.append(line)
    return parts


def write(parts):
    text = HEAD
    for name, (notes, rows) in parts.items():
        widths = [max(len(row[at]) for row in rows) for at in range(len(rows[0]))]
        lines = [" | ".join(cell.ljust(width) if at < 2 else cell.rjust(width) for at, (cell, width) in enumerate(zip(row, widths))).rstrip()
                 for row in rows]
        text += f"\n== {name} ==\n" + "\n".join(notes) + "\n\n" + "\n".join(lines) + "\n"
    with open(PATH, "w", encoding="utf-8") as out:
        out.write(text)


def table(parts, name):
    """Returns a part's figures: the cells after the first two, by those two. The first row names the
    columns."""
    return {(row[0], row[1]): row[2:] for row in parts.get(name, ([], [[]]))[1][1:]}


def pool_of(whose):
    """Returns the pool whose program measured a figure."""
    return PART_OF.get(whose, whose)


def notes_of(part, pool):
    """Returns the notes about this pool's figures: those of an earlier run if there are any, else
    those of all."""
    notes, _ = part
    start = EARLIER.format(pool)
    return [note.removeprefix(start) for note in notes if note.startswith(start)] or [note for note in notes if not is_earlier(note)]


def is_earlier(note):
    return note.startswith(EARLIER.partition("{")[0])


def merged(before, measured, have):
    """Returns the new figures of these pools, followed by the kept figures of all others, with their
    notes."""
    (notes, rows), (_, old) = measured, before
    others = [row for row in old[1:] if pool_of(row[1]) not in have]
    for pool in dict.fromkeys(pool_of(row[1]) for row in others):
        notes = notes + [EARLIER.format(pool) + " ".join(notes_of(before, pool))]
    return notes, rows + others
