#!/usr/bin/env python3
"""Counts the instructions of the core, the live pool and the Rust crate again, and names the counts
that rose above bench/figures.txt.

    bench/bar.py [--built]

It builds the core and the crate with cargo, and the live pool with the Rattle toolchain; with
--built it takes the live pool's program from an earlier run, such as `rt ci`. It exits with 1 if a
count rose. Exception: counts depend on processor, rustc (for the live pool: the toolchain) and
tokio, so a rise over a kept figure of others is no failure. If valgrind, cargo or the toolchain is
missing, a line says so, and that is no failure. Counts do not differ from run to run. Those that
fell are named, too: `bench/compare.py instructions` keeps them.
"""
import shutil
import sys

import figures
import measures
import programs
from measures import CORE_OF, CRATE_OF, LIVE_OF


def built(is_live_there):
    """Returns the pools whose programs exist."""
    live = programs.is_live_there() if is_live_there else programs.is_live_built()
    there = ((CORE_OF, programs.is_core_built()), (LIVE_OF, live), (CRATE_OF, bool(programs.build_pools(None, ("crate",)))))
    return [whose for whose, is_there in there if is_there]


def depends_on(whose):
    """Returns the tools and the machine that a pool's counts depend on, as the notes name them."""
    tools = [programs.version(programs.KIT if whose == LIVE_OF else programs.RUSTC)]
    tools += [name for name in programs.dependencies() if whose == CRATE_OF and name.startswith("tokio ")]
    return [*tools, programs.machine().rpartition(",")[0]]


def others(part, whose):
    """Returns the tools and machines of this run that are not those of the kept figures."""
    notes = " ".join(figures.notes_of(part, whose))
    return [name for name in depends_on(whose) if name not in notes]


def main():
    parts = figures.read()
    if shutil.which("valgrind") is None:
        programs.lacks("instructions (no valgrind)")
        return 0
    kept, rose = figures.table(parts, "instructions"), {}
    for what, whose, figure in measures.counted(measures.counts(built(sys.argv[1:] == ["--built"]))):
        if (what, whose) not in kept:
            print(f"{whose}, {what}: {figure}, and no figure is kept")
            continue
        before = int(kept[(what, whose)][0])
        change = "as kept" if figure == before else f"{'ROSE' if figure > before else 'fell'} from {before}"
        print(f"{whose}, {what}: {figure}, {change}", flush=True)
        if figure > before:
            rose[whose] = rose.get(whose, 0) + 1
    failed = 0
    for whose, count in rose.items():
        other = others(parts["instructions"], whose)
        failed += not other
        print(f"bench/bar.py: {count} of the {whose} rose" + (f", no failure, as the kept figures are not of {', '.join(other)}" if other else ""))
    if not rose:
        print("bench/bar.py: none rose")
    return 1 if failed else 0


if __name__ == "__main__":
    sys.exit(main())
