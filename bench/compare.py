#!/usr/bin/env python3
"""Measures the core, the live pool and the Rust crate, and beside them the original and r2d2, and
keeps the figures.

    bench/compare.py [--original FOLDER] [--built] [instructions] [bytes] [times] [wakes] [shares] [loads]

Without a part it measures all six. It builds the programs first: the core and the pools for Rust
with cargo, the live pool with the Rattle toolchain. With --built it takes the live pool's program
from an earlier run. FOLDER is the crate of bb8 0.9.1; without it cargo's registry is asked, and
then the copy of an earlier run is taken. A program that cannot be built here is named in a line,
and its figures stay as they were. The figures are written to bench/figures.txt, and from them the
pictures in docs/ and the tables in bench/README.md.
"""
import argparse
import datetime
import os
import shutil
import statistics
import subprocess
import sys

import draw
import figures
import measures
import programs
from measures import CORE_OF, CRATE_OF, FAIR_OF, LIVE_OF, ORIGINAL_CORE, ORIGINAL_OF, POOLS, R2D2_OF

PARTS = ("instructions", "bytes", "times", "wakes", "shares", "loads")
REPETITIONS = 9
# all pairs of a run that is timed, in all its threads together
PAIRS = 800_000
ROUNDS = 4_000_000
CROWDS = (10_000, 25_000, 50_000, 100_000)
# rounds of each of two threads that wake each other
WAKES = "500"
# 32 tasks share four connections: the name in the figures, the pool, the mode; and the milliseconds
# of a run
SHARING = ((CRATE_OF, CRATE_OF, "tasks"), (FAIR_OF, CRATE_OF, "fair-tasks"), (ORIGINAL_OF, ORIGINAL_OF, "tasks"))
LONG, SHORT = "3000", "300"


def taken():
    """Returns the notes of a run: time, commit, machine, tools."""
    now = datetime.datetime.now(datetime.timezone.utc).strftime("%Y-%m-%d %H:%M UTC")
    commit = (programs.ran(["git", "rev-parse", "--short", "HEAD"]) or "unknown").strip()
    changed = programs.ran(["git", "status", "--porcelain", "--", "../bench", "../crates", "../rust", ":!figures.txt"])
    tools = [programs.version(words) for words in (programs.RUSTC, programs.VALGRIND, programs.KIT)]
    of = [*programs.dependencies(), f"the original {programs.VERSION}"]
    return [f"Taken {now} at commit {commit}{' with changes' if changed else ''}, on {programs.machine()}.",
            f"By {', '.join(tool for tool in tools if tool)}; {', '.join(of)}."]


def load():
    return "/".join(f"{one:.1f}" for one in os.getloadavg())


def runs(have):
    """Yields the timed runs: what, whose, the command with `{}` for the number, that number, the
    divisor of its time."""
    if CORE_OF in have:
        for size in measures.SIZES:
            yield measures.round_of(size), CORE_OF, [programs.CORE, "rounds", str(size), "{}"], ROUNDS, ROUNDS
            if ORIGINAL_OF in have:
                yield measures.round_of(size), ORIGINAL_CORE, measures.beside(ORIGINAL_OF, "core", size), ROUNDS, ROUNDS
    for mode, is_checked in (("threads-check", True), ("threads", False)):
        for threads, size in measures.THREADS:
            for whose in (LIVE_OF, *POOLS):
                if whose in have:
                    run = measures.live(mode, size) if whose == LIVE_OF else measures.beside(whose, mode, size)
                    yield measures.pair_of(threads, size, is_checked), whose, [*run, str(threads)], PAIRS // threads, PAIRS
    for gets in CROWDS:
        if CORE_OF in have:
            yield f"a crowd of {gets:,}", CORE_OF, [programs.CORE, "crowd", "{}"], gets, 1
        for whose in (LIVE_OF, CRATE_OF, ORIGINAL_OF):
            if whose in have:
                run = measures.live("crowd", 1) if whose == LIVE_OF else measures.beside(whose, "crowd", 1)
                yield f"a crowd of {gets:,}", whose, run, gets, 1


def times(have):
    """Returns the times. The runs are interleaved, and the least time of an empty run is
    subtracted."""
    wanted = list(runs(have))
    told = {(what, whose): ([], []) for what, whose, *_ in wanted}
    for _ in range(REPETITIONS):
        for what, whose, words, number, _ in wanted:
            for count, kept in zip((0, number), told[what, whose]):
                kept.append(measures.timed([word.format(count) for word in words]))
    rows = [["what", "whose", "least wall ns", "median", "greatest", "median processor ns"]]
    for what, whose, _, _, by in wanted:
        none, whole = (list(zip(*each)) for each in told[what, whose])
        walls, used = ([(one - min(less)) / by for one in more] for less, more in zip(none, whole))
        shown = [min(walls), statistics.median(walls), max(walls), statistics.median(used)]
        rows.append([what, whose, *(f"{one:.0f}" if one >= 100 else f"{one:.1f}" for one in shown)])
    return rows


def wakes(have):
    """Returns the time from a return to the end of a sleeping get: the least median of interleaved
    runs, with its 95th percentile."""
    runs = {LIVE_OF: [programs.LIVE, "wake", WAKES], R2D2_OF: [programs.beside("r2d2"), "wake", WAKES, "1"]}
    told = {whose: [] for whose in runs if whose in have}
    for _ in range(REPETITIONS):
        for whose, all_of in told.items():
            all_of.append([int(word) for word in programs.ran(runs[whose]).split()])
    rows = [["what", "whose", "median ns", "95th percentile"]]
    return rows + [["a return to the get that sleeps", whose, *map(str, min(all_of))] for whose, all_of in told.items()]


def shared(have, held, long):
    """Yields the shares of 32 tasks in four connections, each held as `held` says: whose, the number
    of gets that time out, and the rounds of each task."""
    for whose, of, mode in SHARING:
        if of in have:
            late, *rounds = programs.ran([programs.beside(POOLS[of]), f"{mode}-{held}", long, "4", "32"]).split()
            yield whose, late, list(map(int, rounds))


def shares(have):
    """Returns the rounds of each task, from one run of each pool."""
    rows = [["what", "whose", "gets that timed out", "rounds of each"]]
    return rows + [["32 tasks over 4 connections", whose, late, " ".join(map(str, rounds))] for whose, late, rounds in shared(have, "sleep", LONG)]


def loads(have):
    """Returns the rounds of all tasks in a second: the median of interleaved runs."""
    rows = [["what", "whose", "rounds a second"]]
    for held in measures.HELD:
        told = {}
        for _ in range(REPETITIONS):
            for whose, _, rounds in shared(have, held, SHORT):
                told.setdefault(whose, []).append(sum(rounds) * 1000 / int(SHORT))
        rows += [[f"held for {held}", whose, f"{statistics.median(each):.0f}"] for whose, each in told.items()]
    return rows


def measured(part, have):
    """Returns the notes and rows of a part."""
    before, notes = load(), taken()
    if part == "instructions":
        rows = [["what", "whose", "instructions"]]
        rows += [[what, whose, str(figure)] for what, whose, figure in measures.counted(measures.counts(have))]
        return notes, rows
    if part == "bytes":
        return notes, [["what", "whose", "bytes"], *map(list, measures.heaps(have))]
    rows = {"times": times, "wakes": wakes, "shares": shares, "loads": loads}[part](have)
    notes.append(f"Of {'one run' if part == 'shares' else f'{REPETITIONS} interleaved runs'} each. The machine's load was {before} before (1, 5 and 15 minutes) and {load()} after: if it is "
                 "not near 0, other work ran beside them.")
    return notes, rows


def main():
    asked = argparse.ArgumentParser(description="Measures the pools and keeps the figures.")
    asked.add_argument("parts", nargs="*", metavar="PART", help=", ".join(PARTS))
    asked.add_argument("--original", metavar="FOLDER", default=os.environ.get("ORIGINAL"), help="the original's crate")
    asked.add_argument("--built", action="store_true", help="takes the live pool's program as an earlier run built it")
    asked = asked.parse_args()
    parts = asked.parts or PARTS
    if not set(parts) <= set(PARTS):
        sys.exit(f"the parts are {', '.join(PARTS)}")
    live = programs.is_live_there() if asked.built else programs.is_live_built()
    have = [whose for whose, is_there in ((CORE_OF, programs.is_core_built()), (LIVE_OF, live)) if is_there]
    pools = programs.build_pools(asked.original)
    have += [whose for whose, name in POOLS.items() if name in pools]
    kept = figures.read()
    for part in parts:
        if part in ("instructions", "bytes") and shutil.which("valgrind") is None:
            programs.lacks(f"{part} (no valgrind)")
        elif have:
            print(f"{part}: {', '.join(have)}", flush=True)
            kept[part] = figures.merged(kept.get(part, ([], [])), measured(part, have), have)
    if kept:
        figures.write({part: kept[part] for part in PARTS if part in kept})
        draw.write()
        with open(figures.PATH, encoding="utf-8") as told:
            print(told.read(), end="")


if __name__ == "__main__":
    try:
        main()
    except subprocess.CalledProcessError as error:
        sys.exit(f"{error.cmd} failed: {error.stderr[-500:]}")
