#!/usr/bin/env python3
"""How long the proofs and the mutants of the gate take, at the top of the repository.

  gate/model.py [PROCESSORS..]                 estimates it, by default for two and four processors
  gate/model.py --measure [--write] COMMAND..  runs a command of the gate, prints what is left of it
                                               now and then, and at its end the minutes of each crate

gate/costs.txt has the minutes of one processor for each crate's proofs and tests, and for all mutants
of a landing. With --write the measured ones go there. All checks of this machine are counted, so
nothing else may run. A crate without a line counts as bb8_template.

A crate starts when those below it have ended; of several, the one with the longest chain above it.
The status is 1 if proofs and mutants take 100 minutes or more on two processors."""
import os
import pathlib
import re
import subprocess
import sys
import time

COSTS = pathlib.Path("gate/costs.txt")
MUTANTS = "mutants"
MOST = 100


def read():
    """The minutes of each crate, those of the mutants, and the crates below each crate."""
    lines = re.findall(r"^(\w+)[^:\n]*:(.*)$", pathlib.Path("crates.txt").read_text(), re.M)
    below = {crate: set(words.split()) & {it for it, _ in lines} for crate, words in lines}
    known = {crate: float(minutes) for crate, minutes in re.findall(r"^(\w+) (\S+)$", COSTS.read_text(), re.M)}
    return {it: known.get(it, known["bb8_template"]) for it in below}, known[MUTANTS], below


def wall(costs, below, processors):
    """The minutes that the proofs take on so many processors."""
    def chain(crate):
        return costs[crate] + max((chain(it) for it in below if crate in below[it]), default=0)

    free, ended = [0.0] * processors, {}
    chains = {it: chain(it) for it in costs}
    while len(ended) < len(costs):
        free.sort()
        ready = {it: max([free[0], *(ended[low] for low in below[it])])
                 for it in costs if it not in ended and below[it] <= ended.keys()}
        crate = min(ready, key=lambda it: (ready[it], -chains[it]))
        free[0] = ended[crate] = ready[crate] + costs[crate]
    return max(free)


def checks():
    """The checks that run now: process, crate, and minutes of processor time with those of its copies,
    which are no checks of their own."""
    found, parents = {}, {}
    for place in pathlib.Path("/proc").glob("[0-9]*"):
        try:
            words = (place / "cmdline").read_bytes().decode(errors="replace").split("\0")
            if words[0].endswith("/rattle") and "--crate-name" in words:
                fields = (place / "stat").read_text().rpartition(")")[2].split()
                used = sum(map(int, fields[11:15])) / os.sysconf("SC_CLK_TCK") / 60
                crate = words[words.index("--crate-name") + 1]
                found[place.name], parents[place.name] = ((place.name, fields[19]), crate, used), fields[1]
        except OSError:
            pass
    return [check for process, check in found.items() if parents[process] not in found]


def measure(command, is_written):
    """Runs a command of the gate, measures its checks, and returns its status."""
    costs, mutants, below = read()
    is_proofs = command[0] == "rt"
    of_all = sum(costs.values()) if is_proofs else mutants
    length = wall(costs, below, os.cpu_count()) if is_proofs else mutants / min(4, os.cpu_count())
    begun, told, seen = time.monotonic(), 0, {}
    running = subprocess.Popen(command)
    while running.poll() is None:
        seen.update((process, (crate, used)) for process, crate, used in checks())
        minutes, used = int(time.monotonic() - begun) // 60, sum(it for _, it in seen.values())
        if minutes >= told + 5:
            told = minutes
            print(f"model: {minutes} minutes, about {length * max(0, 1 - used / of_all):.0f} left", flush=True)
        time.sleep(0.5)
    found = {} if is_proofs else {MUTANTS: 0}
    for crate, used in seen.values():
        name = crate if is_proofs else MUTANTS
        found[name] = found.get(name, 0) + used
    print(f"model: {(time.monotonic() - begun) / 60:.0f} minutes, of one processor {sum(found.values()):.0f}")
    lines = [f"{name} {minutes:.1f}" for name, minutes in sorted({**costs, MUTANTS: mutants, **found}.items())]
    print(*[it for it in lines if it.split()[0] in found], sep="\n", flush=True)
    if is_written:
        remarks = re.findall(r"^#.*$", COSTS.read_text(), re.M)
        COSTS.write_text("\n".join([*remarks, *lines, ""]))
    return running.returncode


def main():
    words = sys.argv[1:]
    if words[:1] == ["--measure"]:
        is_written = words[1:2] == ["--write"]
        return measure(words[1 + is_written :], is_written)
    costs, mutants, below = read()
    print(f"of one processor {sum(costs.values()) + mutants:.0f} minutes: proofs {sum(costs.values()):.0f}, mutants {mutants:.0f}")
    for processors in map(int, words or ["2", "4"]):
        proofs, tried = wall(costs, below, processors), mutants / min(4, processors)
        print(f"{processors} processors: {proofs:.0f} minutes, and {tried:.0f} of mutants")
        if processors == 2 and proofs + tried >= MOST:
            print(f"gate/model.py: more than {MOST} minutes on two processors")
            return 1
    return 0


if __name__ == "__main__":
    sys.exit(main())
