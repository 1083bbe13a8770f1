"""The measurements: instructions by callgrind, bytes by massif, times by the kernel."""
import os
import re
import statistics
import subprocess
import tempfile
import time

import programs
from programs import CORE, LIVE, WIDTHS

# whose figures stand beside each other
CORE_OF, LIVE_OF, CRATE_OF, ORIGINAL_OF, R2D2_OF = "core", "live pool", "Rust crate", "original", "r2d2"
ORIGINAL_CORE, FREE_CORE = "original's core", "original's core, no limits on ages"
FAIR_OF = "Rust crate, fair after 1 ms"
# the pools for Rust, by the names of their programs
POOLS = {CRATE_OF: "crate", ORIGINAL_OF: "original", R2D2_OF: "r2d2"}
SIZES = (1, 10, 1_000, 100_000)
# which pool each of the others is a part of
PART_OF = {ORIGINAL_CORE: ORIGINAL_OF, FREE_CORE: ORIGINAL_OF, FAIR_OF: CRATE_OF}
FEW, MANY = 1_000, 11_000
# waiting gets of the smaller and of the larger run, if all wait at once, and if they wait in batches
# of 16
CROWD, BATCHES = (12_500, 25_000), (3_200, 16_000)
SERVED, CANCELLED = "a waiting get, served", "a waiting get, cancelled"
# threads that share a pool: how many, and its size
THREADS = ((1, 16), (2, 16), (4, 16), (8, 16), (4, 4))
# how a task holds a connection, by the modes of `beside`
HELD = ("nothing", "yield", "compute", "sleep")
# seconds that one run of the profiler may take
LIMIT = 600


def round_of(size):
    return f"a round, {size:,} connection{'' if size == 1 else 's'}"


def pair_of(threads, size, is_default):
    """Names a pair in this many threads: with the default settings, or with the check off."""
    return f"{settings_of(is_default)}, {threads} thread{'' if threads == 1 else 's'}, pool of {size}"


def settings_of(is_default, wide=8):
    """Names a pair with the default settings, or with the check off, over connections of this many
    bytes."""
    return f"a pair, {'default settings' if is_default else 'check off'}{'' if wide == 8 else f', {wide} bytes'}"


def profiled(tool, words, *more):
    """Returns valgrind's report about a run."""
    done = subprocess.run(["valgrind", f"--tool={tool}", *more, *words], capture_output=True, text=True, timeout=LIMIT, check=True)
    return done.stderr


def instructions(words):
    """Returns the instructions of a run."""
    return int(re.search(r"Collected : (\d+)", profiled("callgrind", words, "--callgrind-out-file=/dev/null")).group(1))


def between(words, few, many):
    """Returns the instructions of a round: by how many a run of `many` rounds exceeds a run of `few`,
    divided by the difference of the rounds. `{}` in the words is replaced by the number of
    rounds."""
    def run(number):
        return instructions([word.format(number) for word in words])
    return round((run(many) - run(few)) / (many - few))


def live(mode, size):
    return [LIVE, mode, "{}", str(size)]


def beside(whose, mode, size, wide=8):
    return [programs.beside(POOLS[whose], wide), mode, "{}", str(size)]


def counts(have):
    """Yields the counts of these pools: what, whose, the command, the rounds of both runs, and a run
    that is subtracted, with its number."""
    if CORE_OF in have:
        for size in SIZES:
            yield round_of(size), CORE_OF, [CORE, "rounds", str(size), "{}"], FEW, MANY, None
        yield "the floor: lock, pop, unlock, lock, push, unlock", CORE_OF, [CORE, "floor", "{}"], FEW, MANY, None
        yield f"{SERVED}, 25,000 at once", CORE_OF, [CORE, "crowd", "{}"], *CROWD, None
        yield "the cancellation of a waiting get", CORE_OF, [CORE, "give-ups", "100000", "45000", "{}"], FEW, MANY, None
    if LIVE_OF in have:
        task = live("task", 4)
        yield settings_of(False), LIVE_OF, live("hand", 4), FEW, MANY, (task, 1)
        yield f"{settings_of(False)}, on the machine's clock", LIVE_OF, live("machine", 4), FEW, MANY, (task, 1)
        yield settings_of(True), LIVE_OF, live("check", 4), FEW, MANY, (task, 1)
        yield f"{SERVED}, 25,000 at once", LIVE_OF, live("crowd", 1), *CROWD, (task, 2)
        yield f"{CANCELLED}, 25,000 at once", LIVE_OF, live("let-go", 1), *CROWD, (task, 1)
    if ORIGINAL_OF in have:
        for whose, mode in ((ORIGINAL_CORE, "core"), (FREE_CORE, "core-free")):
            for size in SIZES:
                yield round_of(size), whose, beside(ORIGINAL_OF, mode, size), FEW, MANY, None
    for whose in POOLS:
        if whose in have:
            yield from counts_of(whose)


def counts_of(whose):
    """Yields the counts of one of the pools for Rust."""
    for is_default, mode in ((True, "check"), (False, "hand")):
        for wide in WIDTHS:
            yield settings_of(is_default, wide), whose, beside(whose, mode, 4, wide), FEW, MANY, None
    yield f"{settings_of(False)}, no limits on ages", whose, beside(whose, "free", 4), FEW, MANY, None
    if whose != R2D2_OF:
        for what, mode in ((SERVED, "crowd"), (CANCELLED, "let-go")):
            yield f"{what}, 16 at a time", whose, beside(whose, f"{mode}16", 1), *BATCHES, None
            yield f"{what}, 25,000 at once", whose, beside(whose, f"{mode}25000", 1), *CROWD, None


def counted(rows):
    """Yields the instructions of each of these: what, whose, and the count."""
    known = {}
    for what, whose, words, few, many, off in rows:
        figure = between(words, few, many)
        if off:
            run, times = off
            key = tuple(run)
            if key not in known:
                known[key] = between(run, FEW, MANY)
            figure -= known[key] * times
        yield what, whose, figure


def kept_bytes(words):
    """Returns the bytes that a run keeps allocated during the longest part of it, by massif."""
    with tempfile.TemporaryDirectory() as folder:
        path = os.path.join(folder, "massif")
        profiled("massif", words, f"--massif-out-file={path}", "--time-unit=i", "--max-snapshots=1000", "--detailed-freq=1000000")
        with open(path, encoding="utf-8") as told:
            text = told.read()
    moments = [int(moment) for moment in re.findall(r"^time=(\d+)$", text, re.M)]
    sizes = [int(size) for size in re.findall(r"^mem_heap_B=(\d+)$", text, re.M)]
    lasted = {}
    for start, end, size in zip(moments, moments[1:], sizes):
        lasted[size] = lasted.get(size, 0) + end - start
    return max(lasted, key=lasted.get)


# sizes at which doubling tables are just full (ours have entries of their own), and at which all have
# just doubled
OURS_FULL, FULL, DOUBLED = 4_031, 4_096, 4_097


def heaps(have):
    """Yields the bytes of each further idle connection, with its number of 8 bytes, and of each
    further waiting get: what, whose, and the figure. It is the median of three runs, as r2d2 opens
    connections in threads."""
    def kept(words):
        return statistics.median(kept_bytes(words) for _ in range(3))
    runs = []
    if LIVE_OF in have:
        runs += [("an idle connection", LIVE_OF, lambda many: [LIVE, "hand", "400000", str(many)]),
                 ("a waiting get", LIVE_OF, lambda many: [LIVE, "wait", str(many), "1"])]
    for whose in (CRATE_OF, ORIGINAL_OF, R2D2_OF):
        if whose in have:
            runs.append(("an idle connection", whose, lambda many, whose=whose: [programs.beside(POOLS[whose]), "hand", "400000", str(many)]))
            if whose != R2D2_OF:
                runs.append(("a waiting get", whose, lambda many, whose=whose: [programs.beside(POOLS[whose]), "wait", str(many), "1"]))
    for what, whose, words in runs:
        first = kept(words(1))
        for where, many in (("full", OURS_FULL if whose in (LIVE_OF, CRATE_OF) else FULL), ("just grown", DOUBLED)):
            yield f"{what}, tables {where}", whose, f"{(kept(words(many)) - first) / (many - 1):.0f}"
    for whose in (CRATE_OF, ORIGINAL_OF):
        if whose in have:
            told = subprocess.run([programs.beside(POOLS[whose]), "sizes", "0", "1"], capture_output=True, text=True, check=True)
            yield "of a waiting get, its future", whose, told.stdout.strip()


def timed(words):
    """Returns the nanoseconds of a run: wall time, and processor time."""
    start = time.monotonic_ns()
    with subprocess.Popen(words, stdout=subprocess.DEVNULL) as process:
        _, status, used = os.wait4(process.pid, 0)
        wall = time.monotonic_ns() - start
        process.returncode = os.waitstatus_to_exitcode(status)
    if process.returncode:
        raise RuntimeError(f"{words} ended with {process.returncode}")
    return wall, (used.ru_utime + used.ru_stime) * 1e9
