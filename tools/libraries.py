"""What tools/build and tools/check share: how the prover is called, and where built libraries are kept.

The prover is called as `rt ci` calls it: a built library holds its statements and not its proofs, so the crates above it
have less to read. Libraries stand in the user's cache (~/.cache/line/store), each under a sum of all that it was built
from: the kit, the crate's line and sources, and the libraries below it *as they were built*. So every checkout of a user
shares them, and what leaves a library the same, as a comment or most proofs, costs its own crate alone. The store stays
below 10 GB: what was used longest ago goes.
"""
import contextlib
import fcntl
import hashlib
import json
import os
import re
import shutil
import subprocess
import sys
import tempfile
import threading
import time

TOP = os.path.dirname(os.path.dirname(os.path.abspath(__file__)))
CACHE = (os.environ.get("XDG_CACHE_HOME") or os.path.expanduser("~/.cache")) + "/line"
STORE = f"{CACHE}/store"
PROGRAM = "line_program"
PARTS = ("src", "specs", "proofs")
# The most that the store may hold, in bytes.
STORE_MOST = 10_000_000_000
# What a check takes of memory, in bytes, as a rule.
EACH = 2_500_000_000
# What the prover says of what it has passed.
PASSED = re.compile(r"^(checked|so far|statements|crate|library) |: (proved|no holes)$")


class Ran:
    """What a command came to: its status, what it said, its seconds, those of processor time, and its memory in MB."""

    def __init__(self, status, said, seconds=0, used=0, memory=0):
        self.status, self.said, self.seconds, self.used, self.memory = status, said, seconds, used, memory

    def then(self, other):
        """What this command and another one after it came to."""
        memory = max(self.memory, other.memory)
        return Ran(other.status, self.said + other.said, self.seconds + other.seconds, self.used + other.used, memory)

    def told(self):
        """What was said but for what passed."""
        return "\n".join(it for it in self.said.splitlines() if not PASSED.search(it))


def run(words, folder):
    """Runs a command in a folder."""
    begun = time.time()
    pipes = {"stdin": subprocess.DEVNULL, "stdout": subprocess.PIPE, "stderr": subprocess.STDOUT}
    with subprocess.Popen(words, cwd=folder, errors="replace", text=True, **pipes) as ran:
        said = ran.stdout.read()
        _, status, used = os.wait4(ran.pid, 0)
        ran.returncode = os.waitstatus_to_exitcode(status)
    return Ran(ran.returncode, said, time.time() - begun, used.ru_utime + used.ru_stime, used.ru_maxrss // 1000)


def places():
    """How many checks run side by side: one a processor, as many as memory holds."""
    with open("/proc/meminfo", encoding="utf-8") as it:
        free = next(1024 * int(line.split()[1]) for line in it if line.startswith("MemAvailable"))
    return max(1, min(len(os.sched_getaffinity(0)), free // EACH))


def read_json(file):
    try:
        with open(file, encoding="utf-8") as it:
            return json.load(it)
    except (OSError, ValueError):
        return {}


def write_file(file, text):
    """Writes a file, whole or not at all."""
    with open(f"{file}.{os.getpid()}.new", "w", encoding="utf-8") as it:
        it.write(text)
    os.replace(f"{file}.{os.getpid()}.new", file)


def sum_of_folder(folder):
    """A sum of the names and bytes of all files below a folder."""
    whole = hashlib.sha256()
    for at, folders, files in os.walk(folder):
        folders.sort()
        for name in sorted(files):
            with open(f"{at}/{name}", "rb") as it:
                data = hashlib.sha256(it.read()).hexdigest()
            whole.update(f"{os.path.relpath(at, folder)}/{name} {data}\n".encode())
    return whole.hexdigest()


class Tree:
    """The crates of a checkout: the names on the line of each in crates.txt, and their sources."""

    def __init__(self, top=TOP):
        self.top, self.names, self.listed, self.lines = top, {}, {}, {}
        with open(f"{top}/crates.txt", encoding="utf-8") as lines:
            for line in lines:
                head, colon, rest = line.partition("#")[0].partition(":")
                if colon:
                    self.names[head.split()[0]] = rest.split()
                    self.listed[head.split()[0]] = " ".join(line.partition("#")[0].split())

    def below(self, *crates):
        """The crates that these stand on, each after those that it stands on itself."""
        found = []

        def add(one):
            for it in self.names[one]:
                if it in self.names and it not in found:
                    add(it)
                    found.append(it)

        for crate in crates:
            add(crate)
        return found

    def with_below(self, *crates):
        """These crates and those that they stand on, each after those that it stands on itself."""
        found = self.below(*crates)
        return found + [it for it in crates if it not in found]

    def is_program(self, crate):
        return os.path.isfile(f"{self.top}/crates/{crate}/src/main.rt")

    def own_sum(self, crate):
        """A sum of the crate's own line and sources, as they are now; it notes the lines of code."""
        whole, self.lines[crate] = hashlib.sha256(self.listed[crate].encode()), 0
        for part in PARTS:
            for at, folders, files in os.walk(f"{self.top}/crates/{crate}/{part}"):
                folders.sort()
                for name in sorted(files):
                    with open(f"{at}/{name}", "rb") as it:
                        text = it.read()
                    whole.update(repr((os.path.relpath(f"{at}/{name}", self.top), text)).encode())
                    self.lines[crate] += text.count(b"\n") * name.endswith(".rt")
        return whole.hexdigest()


class Store:
    """The built libraries of the crates of a tree, and how the prover is called over them."""

    def __init__(self, tree, room=STORE):
        found = shutil.which("rt")
        if not found:
            raise OSError("there is no command rt here: the Rattle kit is needed")
        self.kit = os.path.dirname(os.path.dirname(os.path.realpath(found)))
        self.version = subprocess.run(["rt", "version"], capture_output=True, text=True, check=True).stdout.strip()
        self.tree, self.room, self.own, self.keys, self.marks = tree, room, {}, {}, {}
        self.turn = threading.RLock()
        os.makedirs(room, exist_ok=True)

    def own_sum(self, crate):
        with self.turn:
            if crate not in self.own:
                self.own[crate] = self.tree.own_sum(crate)
            return self.own[crate]

    def key(self, crate):
        """The sum of all that the crate is built from, or None while a library below it isn't there."""
        with self.turn:
            if crate not in self.keys:
                below = [(it, self.mark(it)) for it in self.tree.below(crate)]
                if any(mark is None for _, mark in below):
                    return None
                self.keys[crate] = hashlib.sha256(repr((self.version, self.own_sum(crate), below)).encode()).hexdigest()
            return self.keys[crate]

    def mark(self, crate):
        """The sum of the crate's built library, or None where it isn't there."""
        with self.turn:
            if crate not in self.marks:
                key = self.key(crate)
                with contextlib.suppress(OSError):
                    if key:
                        os.utime(f"{self.room}/{key}/sum")
                        with open(f"{self.room}/{key}/sum", encoding="utf-8") as it:
                            self.marks[crate] = it.read().split()[0]
            return self.marks.get(crate)

    def library(self, crate):
        return f"{self.room}/{self.key(crate)}/{crate}.rlib"

    def words(self, verb, crate):
        """What the prover is called with, in the crate's folder."""
        root = "src/main.rt" if self.tree.is_program(crate) else "src/lib.rt"
        words = [f"{self.kit}/bin/rattle", verb, "--crate-name", crate, root]
        for name in ["std", *self.tree.names[crate]]:
            place = self.library(name) if name in self.tree.names else f"{self.kit}/rlibs/{name}.rlib"
            words += ["--extern", f"{name}={place}"]
        words += ["-L", f"dependency={self.kit}/rlibs"]
        for name in self.tree.below(crate):
            words += ["-L", f"dependency={os.path.dirname(self.library(name))}"]
        words += ["--antt-project", f"{self.kit}/rattle/logic/antt-project.json"]
        return words + ["--logic-built", f"{self.kit}/logic_built", "--links", f"{crate}=", "--jobs", "1"]

    def call(self, words, crate):
        """Calls the prover in the crate's folder. What it made counts only if no source was changed meanwhile."""
        ran = run(words, f"{self.tree.top}/crates/{crate}")
        if not ran.status and self.tree.own_sum(crate) != self.own_sum(crate):
            return Ran(2, "line: a source was changed meanwhile: build it again\n", ran.seconds, ran.used, ran.memory)
        return ran

    def make(self, crate):
        """Builds the library of a crate, over those below it, unless another run has made it meanwhile."""
        place = f"{self.room}/{self.key(crate)}"
        os.makedirs(place, exist_ok=True)
        with open(f"{place}/lock", "w", encoding="utf-8") as lock:
            fcntl.flock(lock, fcntl.LOCK_EX)
            if self.mark(crate):
                return Ran(0, "")
            made = tempfile.mkdtemp(dir=place)
            try:
                ran = self.call([*self.words("build", crate), "--statements", "-o", f"{made}/{crate}.rlib"], crate)
                if not ran.status:
                    shutil.rmtree(f"{place}/{crate}.rlib", ignore_errors=True)
                    os.rename(f"{made}/{crate}.rlib", f"{place}/{crate}.rlib")
                    self.note(crate)
            finally:
                shutil.rmtree(made, ignore_errors=True)
            return ran

    def note(self, crate):
        """Notes the sum and the size of a library that was just put into its place."""
        place = f"{self.room}/{self.key(crate)}"
        size = sum(os.stat(f"{at}/{it}").st_size for at, _, files in os.walk(place) for it in files)
        write_file(f"{place}/sum", f"{sum_of_folder(f'{place}/{crate}.rlib')} {size}\n")

    def link(self, made):
        """Links a program of its object file."""
        words = [f"{self.kit}/bin/rattle-link", "--target", "x86_64-unknown-linux-gnu"]
        words += ["--toolchain", f"{self.kit}/toolchain", "-o", made, f"{made}.o"]
        return run([*words, f"{self.kit}/c/libos_c.a", f"{self.kit}/c/liblibc_c.a"], os.path.dirname(made))

    def compile(self, crate, made, words=()):
        """Proves a crate as a program, or as its tests, and links it."""
        tools = ["--toolchain", f"{self.kit}/toolchain", "--backend", "llvm", "-o", f"{made}.o"]
        ran = self.call([*self.words("build", crate), *words, *tools], crate)
        return ran if ran.status else ran.then(self.link(made))

    def shrink(self):
        """Removes what was used longest ago while the store holds too much."""
        found = []
        for key in os.listdir(self.room):
            with contextlib.suppress(OSError, ValueError):
                file = f"{self.room}/{key}/sum"
                with open(file, encoding="utf-8") as it:
                    found.append((os.stat(file).st_mtime, int(it.read().split()[1]), key))
        left = sum(size for _, size, _ in found)
        for _, size, key in sorted(found):
            if left <= STORE_MOST:
                break
            os.remove(f"{self.room}/{key}/sum")
            shutil.rmtree(f"{self.room}/{key}", ignore_errors=True)
            left -= size


class Builder:
    """Builds the libraries of some crates that aren't there, each once all below it are, those with the longest chain of
    others behind them first, as many side by side as there are processors and memory."""

    def __init__(self, store, crates, log=None):
        self.store, self.crates, self.log, self.tree = store, crates, log, store.tree
        self.seconds = read_json(f"{CACHE}/seconds.json")
        self.running, self.failed, self.turn, self.chains = {}, None, threading.Condition(), {}
        self.begun = time.time()

    def is_built(self, crate):
        return self.store.mark(crate) is not None

    def need(self, crate):
        """About how many seconds the crate takes: as measured on this machine, or by its lines of code. What stands
        below has to be read first, and then each function takes about a second."""
        self.store.own_sum(crate)
        return self.seconds.get(crate, self.tree.lines[crate] / 11 + 35)

    def chain(self, crate):
        """About how many seconds the crate and the longest chain of those above it take."""
        if crate not in self.chains:
            above = [self.chain(it) for it in self.crates if crate in self.tree.names[it]]
            self.chains[crate] = self.need(crate) + max(above, default=0)
        return self.chains[crate]

    def make(self, crate):
        return self.store.make(crate)

    def step(self, crate):
        """Builds one crate, and notes what it took."""
        begun = time.time()
        try:
            ran = self.make(crate)
        except (OSError, subprocess.CalledProcessError) as error:
            ran = Ran(2, f"{error}\n")
        ended = time.time()
        with self.turn:
            del self.running[crate]
            if ran.status:
                self.failed = self.failed or (crate, ran.told())
            else:
                if ran.seconds:
                    self.seconds[crate] = round(ended - begun, 1)
                    write_file(f"{CACHE}/seconds.json", json.dumps(self.seconds, indent=0, sort_keys=True))
                self.tell(crate)
            if self.log:
                times = [begun - self.begun, ended - self.begun, ran.seconds, ran.used]
                print(crate, *[f"{it:.1f}" for it in times], ran.memory, file=self.log, flush=True)
            self.turn.notify_all()

    def tell(self, crate):
        """Says how far the run is: crate K of N, the minutes gone, and the longest of those that run."""
        count, now = sum(map(self.is_built, self.crates)), time.time()
        left = {it: self.need(it) - (now - since) for it, since in self.running.items()}
        rest = sorted(left.items(), key=lambda it: -it[1])[:2]
        text = f"line: {count} of {len(self.crates)}: {crate}; {(now - self.begun) / 60:.0f} min gone"
        if rest:
            text += "; " + ", ".join(f"{it} needs {max(much, 1) / 60:.1f} min" for it, much in rest)
        print(text, file=sys.stderr, flush=True)

    def ready(self):
        """The crates that can be built now, those with the longest chain first."""
        left = [it for it in self.crates if not self.is_built(it) and it not in self.running]
        found = [it for it in left if all(self.is_built(one) for one in self.tree.names[it] if one in self.tree.names)]
        return sorted(found, key=self.chain, reverse=True)

    def run(self):
        """Builds all that isn't built yet. Returns whether all is; what failed is told."""
        todo = [it for it in self.crates if not self.is_built(it)]
        if not todo:
            return True
        many = min(places(), len(todo))
        print(f"line: building {len(todo)} of {len(self.crates)} crates, {many} at a time", file=sys.stderr, flush=True)
        with self.turn:
            while self.failed is None:
                found = self.ready()
                if found and len(self.running) < many:
                    self.running[found[0]] = time.time()
                    threading.Thread(target=self.step, args=(found[0],), daemon=True).start()
                elif self.running:
                    self.turn.wait()
                else:
                    break
            while self.running:
                self.turn.wait()
        self.store.shrink()
        if self.failed:
            print(self.failed[1], f"line: {self.failed[0]} could not be built", sep="\n", file=sys.stderr)
        return self.failed is None
