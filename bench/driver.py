"""What the programs of bench/ share: the driver, its mixes, the kit, and how a program for x86-64 is started here."""
import os
import pathlib
import platform
import re
import shutil
import subprocess

HERE = pathlib.Path(__file__).resolve().parent
ROOT = HERE.parent
OUT = ROOT / "target" / "bench"
DRIVER = OUT / "bench"
SESSION = ROOT / "crates" / "session" / "out" / "session"
NATIVE = platform.machine() == "x86_64"
EMULATOR = os.environ.get("EMULATOR") or "/usr/bin/qemu-x86_64"
# Each work is done so often, and twice as often: the difference has no start in it.
REPEATS = 4
# A mix may also be a session of equal steps: kind, a, b and c.
EQUAL_STEPS = re.compile(r"\d{1,3}(,\d{1,3}){3}")


class Stop(Exception):
    def __init__(self, status, words):
        super().__init__(words)
        self.status = status


def needed(program, what):
    if shutil.which(program) is None:
        raise Stop(3, f"there is no {program} {what}; 'tools/setup' installs what bench/run needs")
    return program


def kit():
    """The kit's folder."""
    guide = subprocess.run([needed("rt", "with its kit"), "doc"], capture_output=True, text=True)
    if guide.returncode != 0:
        raise Stop(3, "'rt doc' does not tell where the kit is")
    return pathlib.Path(guide.stdout.strip()).parent


def kit_loader():
    """The kit's loader and C library, with which programs run under the emulator, where there may be no other."""
    lib = kit() / "toolchain" / "lib"
    return [str(lib / "ld-linux-x86-64.so.2"), "--library-path", str(lib)]


def start(program, counter=()):
    """The words that start a program for x86-64 here, under what counts."""
    loader = [] if NATIVE else kit_loader()
    if counter:
        return [*counter, *loader, str(program)]
    return [*([] if NATIVE else emulator()), *loader, str(program)]


def emulator():
    return [needed(EMULATOR, "to run a program for x86-64")]


def emulator_that_counts(*words):
    """With the plugin bench/count.c, and words for it."""
    return [*emulator(), "-plugin", ",".join([str(OUT / "count.so"), *words])]


def counter():
    if NATIVE:
        return [needed("valgrind", "to count instructions"), "--tool=callgrind", "--callgrind-out-file=/dev/null"]
    return emulator_that_counts()


def done(words, source=None):
    finished = subprocess.run(words, input=source, stdin=None if source is not None else subprocess.DEVNULL,
                              capture_output=True)
    if finished.returncode != 0:
        raise Stop(1, finished.stderr.decode(errors="replace").strip() or f"{words[0]} fails")
    return finished


def driver(words, source=None):
    return done(start(DRIVER) + words, source).stdout


def counted(program, words, source):
    told = done(start(program, counter()) + words, source).stderr.decode(errors="replace")
    found = re.search(r"Collected : (\d+)" if NATIVE else r"^instructions (\d+)$", told, re.MULTILINE)
    if not found:
        raise Stop(1, f"nothing was counted: {told.strip()}")
    return int(found[1])


def build():
    built = subprocess.run([str(HERE / "build")], stdin=subprocess.DEVNULL, capture_output=True, text=True)
    if built.returncode != 0:
        raise Stop(3 if built.returncode == 3 else 1, built.stderr.strip().removeprefix("bench/build: "))


def are_mixes(words):
    return all(word.isalpha() or EQUAL_STEPS.fullmatch(word) for word in words)


def mixes(names):
    """Name, bytes and steps of each. That both sides write the same is seen here, and again in each run."""
    made, known = [], driver(["mix"]).decode().split()
    for name in names:
        if name not in known and not EQUAL_STEPS.fullmatch(name):
            raise Stop(2, f"no mix is called {name}; there are {', '.join(known)}")
    for name in names or known:
        mix = driver(["mix", name])
        made.append((name, mix, int(driver(["same"], mix).split()[0])))
    return made
