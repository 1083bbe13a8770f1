"""The programs that are measured: builds those that can be built here, and names the others in a
line each.

All files that it writes are in bench/target and in the `out` folder of a crate, which git ignores.
"""
import os
import re
import shutil
import subprocess

HERE = os.path.dirname(os.path.abspath(__file__))
TOP = os.path.dirname(HERE)
WORK = os.path.join(HERE, "target", "beside")
ORIGINAL = os.path.join(HERE, "target", "original")
TARGET = os.path.join(HERE, "target")
CORE = os.path.join(TARGET, "release", "bench")
LIVE = os.path.join(TOP, "crates", "bb8_live_bench", "out", "bb8_live_bench")
# the version of the original
VERSION = "0.9.1"
# bytes of a connection
WIDTHS = (8, 128, 512)
# how the tools are asked for their versions
RUSTC, VALGRIND, KIT = ["rustc", "--version"], ["valgrind", "--version"], ["rt", "version"]


def ran(words, folder=HERE, **more):
    """Returns the output of a command, or None if it fails or does not exist."""
    try:
        done = subprocess.run(words, cwd=folder, capture_output=True, text=True, **more)
    except OSError:
        return None
    return done.stdout if done.returncode == 0 else None


def lacks(what):
    print(f"not available here: {what}", flush=True)


def with_cargo():
    """Returns cargo's environment: Debian's packages of crates if they are installed, else cargo's
    own registry."""
    home = (ran([os.path.join(TOP, "rust", "registry"), os.path.join(WORK, "cargo")]) or "").strip()
    return dict(os.environ, **({"CARGO_HOME": home} if home else {}))


def write(path, text):
    os.makedirs(os.path.dirname(path), exist_ok=True)
    with open(path, "w", encoding="utf-8") as out:
        out.write(text)


def fetched(name, wanted, environment):
    """Returns the folder of the last dependency's sources if cargo finds them all, else None."""
    folder = os.path.join(WORK, "probes", name)
    shutil.rmtree(folder, ignore_errors=True)
    lines = "\n".join(f'{crate} = "{version}"' for crate, version in wanted)
    write(os.path.join(folder, "Cargo.toml"), f'[package]\nname = "probe"\nversion = "0.1.0"\nedition = "2021"\n\n[workspace]\n\n[dependencies]\n{lines}\n')
    write(os.path.join(folder, "src", "lib.rs"), "")
    try:
        if ran(["cargo", "fetch"], folder, env=environment, timeout=60) is None:
            return None
        told = ran(["cargo", "metadata", "--format-version", "1"], folder, env=environment, timeout=60) or ""
    except subprocess.TimeoutExpired:
        return None
    place = re.search(r'"manifest_path":"([^"]*/%s-[0-9][^"/]*)/Cargo.toml"' % re.escape(wanted[-1][0]), told)
    return place.group(1) if place else None


def is_original_copied(folder):
    """Copies the original's crate from this folder, and adds a module with rounds of its core. If
    the folder is None, an earlier run's copy serves. Returns whether there is a copy."""
    if folder is None:
        return os.path.isdir(ORIGINAL)
    out = ORIGINAL
    shutil.rmtree(out, ignore_errors=True)
    if ran([os.path.join(TOP, "rust", "original"), os.path.abspath(folder), out]) is None:
        return False
    inner = os.path.join(out, "src", "internals")
    os.makedirs(inner)
    shutil.copy(os.path.join(HERE, "beside", "rounds.rs"), os.path.join(inner, "rounds.rs"))
    for name, line in (("internals.rs", "pub(crate) mod rounds;"), ("lib.rs", "pub use internals::rounds::rounds;")):
        path = os.path.join(out, "src", name)
        os.chmod(path, 0o644)
        with open(path, "a", encoding="utf-8") as end:
            end.write(f"\n{line}\n")
    return True


def beside(pool, wide=8):
    """Returns the path of the program of one of the pools for Rust, over connections of this many
    bytes. Each has a program of its own, so that its code does not depend on the others."""
    return os.path.join(WORK, "target", "release", f"beside-{pool}-{wide}")


def build_pools(folder, wanted=("crate", "original", "r2d2")):
    """Builds the programs of these pools, and returns the names of those that were built. The
    original's crate is in the folder; if that is None, in cargo's registry or in an earlier copy."""
    if shutil.which("cargo") is None:
        lacks(f"{', '.join(wanted)} (no cargo)")
        return []
    environment, needs = with_cargo(), {}
    if fetched("tokio", [("futures-util", "0.3"), ("tokio", "1")], environment):
        tokio = 'tokio = { version = "1", features = ["rt", "rt-multi-thread", "time"] }'
        needs["crate"] = [tokio, f'bb8 = {{ path = "{TOP}/rust/bb8" }}']
        if "original" in wanted and is_original_copied(folder or fetched("original", [("bb8", f"={VERSION}")], environment)):
            needs["original"] = [tokio, f'original = {{ path = "{ORIGINAL}", package = "bb8_original" }}']
    if "r2d2" in wanted and fetched("r2d2", [("r2d2", "0.8")], environment):
        needs["r2d2"] = ['r2d2 = "0.8"']
    whys = {"crate": "cargo's registry has no tokio or no futures-util", "r2d2": "cargo's registry has no r2d2",
            "original": f"cargo's registry has no bb8 {VERSION}, tokio or futures-util, and neither --original nor an earlier run named a folder of its crate"}
    for pool in wanted:
        if pool not in needs:
            lacks(f"{pool} ({whys[pool]})")
    return [pool for pool in wanted if pool in needs and all(is_pool_built(pool, wide, needs[pool], environment) for wide in WIDTHS)]


def is_pool_built(pool, wide, needs, environment):
    """Builds a program over these dependencies. Returns whether that worked."""
    folder = os.path.join(WORK, f"{pool}-{wide}")
    needed = "\n".join(needs)
    # the features that it is not built with are named too, so that the compiler knows them
    features = "\n".join(f"{name} = []" for name in ("crate", "original", "r2d2", *(f"bytes-{each}" for each in WIDTHS)))
    write(os.path.join(folder, "Cargo.toml"), f"""[package]
name = "beside-{pool}-{wide}"
version = "0.1.0"
edition = "2021"
publish = false

[workspace]

[features]
default = ["{pool}", "bytes-{wide}"]
{features}

[dependencies]
{needed}

[profile.release]
# Names for callgrind.
debug = 1
""")
    shutil.rmtree(os.path.join(folder, "src"), ignore_errors=True)
    shutil.copytree(os.path.join(HERE, "beside", "src"), os.path.join(folder, "src"))
    environment = dict(environment, CARGO_TARGET_DIR=os.path.join(WORK, "target"))
    done = subprocess.run(["cargo", "build", "--quiet", "--release"], cwd=folder, env=environment, check=False)
    if done.returncode:
        lacks(f"{pool} (cargo build failed)")
    return done.returncode == 0


def is_core_built():
    """Builds the core's program. Returns whether that worked."""
    if shutil.which("cargo") is None:
        lacks("the core (no cargo)")
        return False
    environment = dict(with_cargo(), CARGO_TARGET_DIR=TARGET)
    done = subprocess.run(["cargo", "build", "--quiet", "--release"], cwd=HERE, env=environment, check=False)
    if done.returncode:
        lacks("the core (cargo build failed)")
    return done.returncode == 0


def is_live_built():
    """Builds the live pool's program, with the Rattle toolchain. Returns whether that worked."""
    if shutil.which("rt") is None:
        lacks("the live pool (no kit)")
        return False
    done = subprocess.run(["rt", "run", "--", "hand", "10", "4"], cwd=os.path.join(TOP, "crates", "bb8_live_bench"),
                          capture_output=True, text=True, check=False)
    if done.returncode:
        lacks(f"the live pool (rt run failed: {done.stdout[-300:]}{done.stderr[-300:]})")
    return done.returncode == 0


def is_live_there():
    """Returns whether an earlier run built the live pool's program."""
    if not os.path.exists(LIVE):
        lacks("the live pool (its program is not built)")
    return os.path.exists(LIVE)


def version(words):
    """Returns the version that a tool prints, or nothing if it does not exist."""
    return (ran(words) or "").strip()


def dependencies():
    """Returns the versions of the crates under the programs of the pools for Rust."""
    found = {}
    for pool in ("crate", "original", "r2d2"):
        path = os.path.join(WORK, f"{pool}-8", "Cargo.lock")
        if os.path.exists(path):
            with open(path, encoding="utf-8") as told:
                found.update(re.findall(r'name = "(tokio|r2d2)"\nversion = "([^"]*)"', told.read()))
    return [f"{name} {found[name]}" for name in sorted(found)]


def machine():
    """Returns the processor's name and the number of processors."""
    with open("/proc/cpuinfo", encoding="utf-8") as told:
        text = told.read()
    name = re.search(r"^model name\s*: (.*)$", text, re.M)
    return f"{name.group(1) if name else 'unknown'}, {len(re.findall('^processor', text, re.M))} processors"
