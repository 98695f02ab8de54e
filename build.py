#!/usr/bin/env python3
"""build.py ROOM KEPT: proves the crates of a room, side by side, and builds the program in it, as ROOM/lolli. `./lolli` and `./prove` call it.

A line on standard error tells of each crate that is proved. A library that was proved is kept in the user's cache folder, or else in the folder KEPT,
under the sum of all that it was made from, so a build that was broken off goes on where it stopped. Status 0: the program is built. 125: it can't be
built, and the lines before say why. 130: the build was told to stop.
"""

import hashlib
import os
import re
import shutil
import signal
import subprocess
import sys
import tempfile
import time
from dataclasses import dataclass
from pathlib import Path

PROGRAM = "lolli"
TARGET = "x86_64-unknown-linux-gnu"
# Those of the kit, which each program is linked with.
C_LIBRARIES = ("libos_c.a", "liblibc_c.a")
# How many processes may share the proof of one crate. More make it dearer, and hardly sooner done.
MOST_JOBS = 4
# In KiB. A check takes up to 3 GB, most of them half as much.
MEMORY_OF_A_JOB = 2_200_000
# The prover's allocator keeps the memory that it has, which it would give back to the kernel and then ask for again.
ALLOCATOR = {"MIMALLOC_PURGE_DELAY": "-1"}
# How many states of a library are kept.
MOST_KEPT = 2
A_DAY = 24 * 60 * 60
# What the proof of a crate takes, in processor seconds (2026-11-29, four processors). They tell the order and the time that is left, so numbers that are
# out of date cost little. A crate that is not among them counts by its lines.
SECONDS = {
    "ll_edge": 60, "ll_bank": 267, "ll_lexer": 38, "ll_parser": 195, "ll_laws": 40, "ll_polarity": 188, "ll_unify": 143,
    "ll_store": 64, "ll_bind": 25, "ll_modules": 26, "ll_sequent": 168, "ll_resources": 85,
    "ll_printer": 91, "ll_prooftext": 276, "ll_agenda": 9, "ll_core": 68, "ll_turn": 38, "ll_pool": 49, "ll_order": 19, "ll_first": 15,
    "ll_index": 51, "ll_session": 39, "ll_freeze": 91, "ll_engine": 263, "ll_crew": 410, "ll_trace": 102, "ll_deepen": 12,
    "ll_make": 10, "ll_cover": 51, "ll_top": 400, "lolli": 95,
}
# So many of these seconds count as proved in their time before the first crate is.
SECONDS_BEFORE = 300


def say(text):
    print(text, file=sys.stderr, flush=True)


class BuildError(Exception):
    """Why the program can't be built, in words for the user."""


def files_below(folder):
    return sorted(file for file in folder.rglob("*") if file.is_file())


def sum_of(*texts):
    """A sum of texts, of files, and of folders by their files' paths and texts."""
    found = hashlib.sha256()
    for text in texts:
        if isinstance(text, Path) and text.is_dir():
            text = sum_of(*[part for file in files_below(text) for part in (str(file.relative_to(text)), file)])
        text = text.read_bytes() if isinstance(text, Path) else text.encode()
        found.update(len(text).to_bytes(8, "big") + text)
    return found.hexdigest()


@dataclass
class Crate:
    """A crate, with the crates of the repository that its line in crates.txt names, and the libraries of the kit."""

    name: str
    uses: list
    of_kit: list
    folder: Path

    def seconds(self):
        """How long its proof takes, roughly."""
        lines = sum(file.read_bytes().count(b"\n") for file in files_below(self.folder) if file.suffix == ".rt")
        return SECONDS.get(self.name, 10 + lines // 10)


def read_crates(room):
    """The crates that the program stands on, lowest first, and itself."""
    lines = [line.partition(":") for line in (room / "crates.txt").read_text().splitlines() if re.match(r"\w.*:", line)]
    stands_on = {name.split()[0]: below.split() for name, _, below in lines}
    found = {}

    def need(name):
        if name in found:
            return
        if name not in stands_on:
            raise BuildError(f"crates.txt has no line for {name}")
        uses = [library for library in stands_on[name] if library in stands_on]
        for library in uses:
            need(library)
        folder = room / "crates" / name
        if not (folder / "src").is_dir():
            raise BuildError(f"crates.txt names {name}, and there is no such crate")
        found[name] = Crate(name, uses, [library for library in stands_on[name] if library not in uses], folder)

    need(PROGRAM)
    return list(found.values())


class Kit:
    """The prover, and what stands beside it."""

    def __init__(self):
        command = shutil.which("rt")
        if not command:
            raise BuildError("there is no command rt here")
        self.at = Path(command).resolve().parent.parent
        self.version = subprocess.run([command, "version"], capture_output=True, text=True, check=False).stdout

    def prove(self, crate, libraries, jobs, made):
        """The call that proves a crate over its libraries, so many processes at a time, and makes its library or, of the program, an object file."""
        rlibs = self.at / "rlibs"
        named = {name: rlibs / f"{name}.rlib" for name in ["std", *crate.of_kit]}
        named.update((name, libraries[name]) for name in crate.uses)
        words = [self.at / "bin" / "rattle", "build", "--crate-name", crate.name]
        words += ["src/main.rt" if crate.name == PROGRAM else "src/lib.rt"]
        for name, rlib in named.items():
            words += ["--extern", f"{name}={rlib}"]
        for folder in [rlibs, *(rlib.parent for rlib in libraries.values())]:
            words += ["-L", f"dependency={folder}"]
        words += ["--antt-project", self.at / "rattle" / "logic" / "antt-project.json", "--logic-built", self.at / "logic_built"]
        words += ["--links", f"{crate.name}=", "--jobs", str(jobs)]
        words += ["--toolchain", self.at / "toolchain"] if crate.name == PROGRAM else ["--statements"]
        return [*words, "-o", made]

    def link(self, made, program):
        """The call that links an object file."""
        toolchain = ["--target", TARGET, "--toolchain", self.at / "toolchain"]
        return [self.at / "bin" / "rattle-link", *toolchain, "-o", program, made, *(self.at / "c" / name for name in C_LIBRARIES)]


class Store:
    """The libraries that were proved. An entry's name has the sum of all that it was made from, so it never goes stale. An entry is made apart and then
    renamed, so that no other build meets half of it."""

    def __init__(self, kit, instead):
        self.kit = kit
        try:
            self.at = Path(os.environ.get("XDG_CACHE_HOME") or Path.home() / ".cache") / PROGRAM
            self.at.mkdir(mode=0o700, parents=True, exist_ok=True)
            tempfile.TemporaryFile(dir=self.at).close()
        except (OSError, RuntimeError):
            self.at = instead
            self.at.mkdir(parents=True, exist_ok=True)

    def place(self, crate, libraries):
        """Where the library stands that is proved of the crate's texts over these libraries."""
        below = [(rlib.parent / "sum").read_text() for _, rlib in sorted(libraries.items())]
        return self.at / f"{crate.name}-{sum_of(self.kit.version, *crate.uses, *crate.of_kit, *below, crate.folder)[:40]}"

    def take(self, place):
        """Whether a library stands at a place. If so it counts as used today."""
        is_kept = (place / "sum").is_file()
        if is_kept:
            os.utime(place)
        return is_kept

    def room(self, crate):
        """A new folder to make an entry in."""
        return Path(tempfile.mkdtemp(prefix=f"new-{crate.name}-", dir=self.at))

    def put(self, room, place, crate):
        """Keeps the library that was made in a room."""
        (room / "sum").write_text(sum_of(room / f"{crate.name}.rlib"))
        if self.take(place):
            # Another build was here first.
            shutil.rmtree(room, ignore_errors=True)
        else:
            room.rename(place)

    def forget_old(self, crates):
        """Removes the states of a library that were not used for longest, and what broken-off builds left."""
        for room in self.at.glob("new-*"):
            if time.time() - room.stat().st_mtime > A_DAY:
                shutil.rmtree(room, ignore_errors=True)
        for crate in crates:
            kept = sorted(self.at.glob(f"{crate.name}-*"), key=lambda place: place.stat().st_mtime, reverse=True)
            for place in kept[MOST_KEPT:]:
                shutil.rmtree(place, ignore_errors=True)


@dataclass
class Check:
    """The proof of a crate under way, by so many processes: what it makes it makes in a room, and a library that is proved is to stand at a place."""

    crate: Crate
    process: subprocess.Popen
    jobs: int
    began: float
    log: Path
    room: Path
    place: Path


def processors():
    """How many processes may run: as many as there are processors and memory for, or as RT_JOBS says."""
    given = os.environ.get("RT_JOBS", "")
    memory = re.search(r"MemAvailable:\s+(\d+)", Path("/proc/meminfo").read_text())
    most = int(memory[1]) // MEMORY_OF_A_JOB if memory else 1
    return int(given) if given.isdigit() and int(given) else max(1, min(len(os.sched_getaffinity(0)), most))


class Clock:
    """What has passed, and how long what is left takes, by what crates took before and by how fast this machine has been."""

    def __init__(self, crates, many):
        self.began, self.many = time.time(), many
        self.seconds = {crate.name: crate.seconds() for crate in crates}
        self.spent, self.proved = SECONDS_BEFORE, SECONDS_BEFORE

    def count(self, check):
        """Counts a proof that has ended."""
        self.spent += (time.time() - check.began) * check.jobs
        self.proved += self.seconds[check.crate.name]

    def passed(self):
        return int(time.time() - self.began)

    def left(self, left, running):
        """The minutes that are left for these crates and for the rest of those that are being proved."""
        rate = self.spent / self.proved
        work = sum(self.seconds[crate.name] for crate in left) * rate
        work += sum(max(0, self.seconds[check.crate.name] * rate - (time.time() - check.began) * check.jobs) for check in running)
        return round(work / self.many / 60 + 0.5)


class Build:
    """What is proved, what is under way, and what is left."""

    def __init__(self, kit, store, crates, room):
        self.kit, self.store, self.crates, self.room = kit, store, crates, room
        self.left = list(crates)
        self.libraries, self.running, self.has_failed = {}, {}, False
        # Those whose check was killed, most likely for memory: they are tried once more, alone.
        self.killed = set()
        self.clock = Clock(crates, processors())
        # The names of all crates that each one stands on, and how long the longest way from it to the program is.
        self.below, self.ways = {}, {}
        for crate in crates:
            self.below[crate.name] = {name for used in crate.uses for name in (used, *self.below[used])}
        for crate in reversed(crates):
            above = [self.ways[other.name] for other in crates if crate.name in other.uses]
            self.ways[crate.name] = self.clock.seconds[crate.name] + max(above, default=0)

    def libraries_of(self, crate):
        return {name: self.libraries[name] for name in self.below[crate.name]}

    def take_kept(self):
        """Takes the libraries that were proved of the same texts."""
        for crate in self.crates:
            if crate in self.left and crate.name != PROGRAM and all(name in self.libraries for name in crate.uses):
                place = self.store.place(crate, self.libraries_of(crate))
                if self.store.take(place):
                    self.left.remove(crate)
                    self.libraries[crate.name] = place / f"{crate.name}.rlib"

    def start_ready(self):
        """Starts as many proofs as there are processors for, first those with the longest way to the program. One that would leave processors idle
        gets more processes."""
        self.take_kept()
        while True:
            ready = [crate for crate in self.left if all(name in self.libraries for name in crate.uses)]
            idle = self.clock.many - sum(check.jobs for check in self.running.values())
            if not ready or idle <= 0 or any(check.crate.name in self.killed for check in self.running.values()):
                return
            ready.sort(key=lambda crate: (crate.name in self.killed, -self.ways[crate.name]))
            crate = ready[0]
            if crate.name in self.killed and self.running:
                return
            self.start(crate, 1 if crate.name in self.killed else max(1, min(MOST_JOBS, idle // len(ready))))

    def start(self, crate, jobs):
        """Starts a proof."""
        self.left.remove(crate)
        libraries = self.libraries_of(crate)
        place = self.store.place(crate, libraries)
        room, log = self.store.room(crate), self.room / f"{crate.name}.log"
        made = room / (f"{PROGRAM}.o" if crate.name == PROGRAM else f"{crate.name}.rlib")
        with log.open("wb") as out:
            words = self.kit.prove(crate, libraries, jobs, made)
            how = {"stdin": subprocess.DEVNULL, "stdout": out, "stderr": subprocess.STDOUT, "start_new_session": True}
            process = subprocess.Popen(words, cwd=crate.folder, env={**ALLOCATOR, **os.environ}, **how)
        self.running[process.pid] = Check(crate, process, jobs, time.time(), log, room, place)

    def end(self, check, status):
        """Keeps what a proof made, or tells what the prover said."""
        crate = check.crate
        if not status and crate.name == PROGRAM:
            status = self.link(check)
        if not status:
            if crate.name != PROGRAM:
                self.store.put(check.room, check.place, crate)
            self.libraries[crate.name] = check.place / f"{crate.name}.rlib"
            self.clock.count(check)
            self.tell(crate)
            return
        shutil.rmtree(check.room, ignore_errors=True)
        if status == -signal.SIGKILL and crate.name not in self.killed:
            self.killed.add(crate.name)
            self.left.append(crate)
        else:
            self.has_failed = True
            say(f"{PROGRAM}: {crate.name} is not proved")
            said = check.log.read_text(errors="replace").replace(f"{self.room}/", "").splitlines()
            say("\n".join(line for line in said if not re.search(r"^statements |: proved$", line)))

    def tell(self, crate):
        """Says that a crate is proved, and how long the rest takes."""
        passed = self.clock.passed()
        left = f", some {self.clock.left(self.left, self.running.values())} min left" if self.left or self.running else ""
        say(f"{len(self.libraries)} of {len(self.crates)}: {crate.name} ({passed // 60} min {passed % 60} s{left})")

    def link(self, check):
        """Links the program."""
        with check.log.open("ab") as out:
            words = self.kit.link(check.room / f"{PROGRAM}.o", self.room / PROGRAM)
            status = subprocess.run(words, stdout=out, stderr=out, check=False).returncode
        if not status:
            shutil.rmtree(check.room, ignore_errors=True)
        return status

    def run(self):
        """Proves all. Where a crate is not proved, those beside it go on to their end, since what they make is kept, and no other starts."""
        self.take_kept()
        left = self.clock.left(self.left, [])
        say(f"{len(self.crates)} crates, {len(self.libraries)} of them proved before; some {left} min left by {self.clock.many} processes")
        self.start_ready()
        while self.running:
            pid, status = os.wait()
            check = self.running.pop(pid, None)
            if check:
                check.process.returncode = os.waitstatus_to_exitcode(status)
                self.end(check, check.process.returncode)
            if not self.has_failed:
                self.start_ready()
        return not self.has_failed

    def stop(self):
        """Ends what is under way."""
        for check in self.running.values():
            try:
                os.killpg(check.process.pid, signal.SIGKILL)
            except ProcessLookupError:
                pass
            shutil.rmtree(check.room, ignore_errors=True)


def interrupted(*_):
    for it in (signal.SIGTERM, signal.SIGINT):
        signal.signal(it, signal.SIG_IGN)
    raise KeyboardInterrupt


def build(room, kept):
    """Builds the program in a room, and says whether it could."""
    kit, crates = Kit(), read_crates(room)
    store = Store(kit, kept)
    whole = Build(kit, store, crates, room)
    try:
        is_built = whole.run()
    finally:
        whole.stop()
    if is_built:
        store.forget_old(crates)
    return is_built


def main():
    for it in (signal.SIGTERM, signal.SIGINT):
        signal.signal(it, interrupted)
    try:
        return 0 if build(Path(sys.argv[1]), Path(sys.argv[2])) else 125
    except (BuildError, OSError) as error:
        say(f"{PROGRAM}: {error}")
        return 125
    except KeyboardInterrupt:
        return 130


if __name__ == "__main__":
    sys.exit(main())
