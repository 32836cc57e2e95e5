#!/usr/bin/env python3
"""Proves the crates that a program stands on, side by side, and links the program.

    build/builder.py [PROGRAM]      makes crates/PROGRAM/out/PROGRAM; PROGRAM is velkatsa where it isn't given

Each library is built by the compiler's own `rattle build --statements`, which proves it from nothing and keeps what the
crates above can cite of it. The words of each command are those of the kit's `rt`, so the program is the one that `rt run`
makes.

What was built is found again by a sum over all that it was made from: the kit, the crate's files, and the sums of what it
stands on. So a change of one crate builds that one and those above, and a call that is interrupted goes on where it stopped.
Two calls at once are one build, and none goes on beside an `rt` that works on the program.

Nothing is written on standard output. Where standard error is a terminal, one line there says how far the build is; where
VELKATSA_VERBOSE is set, a line at each change. The status is 0, or 126 where something isn't proved or can't be built, or
130 where a signal ended the build.
"""

import contextlib
import fcntl
import hashlib
import os
import re
import shutil
import signal
import subprocess
import sys
import time

TOP = os.path.dirname(os.path.dirname(os.path.abspath(__file__)))
PROGRAM = "velkatsa"
# Where the libraries lie, each in a folder of its own. Of what is built, `rt` bears files that end in .rt in a crate's
# out/rlib alone. It removes that of a library when it builds the library; that of a program stays.
STORE = os.path.join(TOP, "crates", PROGRAM, "out", "rlib")
PARTS = ("src", "specs", "proofs")
# The jobs of the crate that most others wait for. Each costs processor time that the others could use.
JOBS = 2
# What a check takes besides the work on the crate's own code, as so many bytes of code: it reads all that lies below. As
# measured, the time goes by these bytes, and not by those of the proofs.
LEAST = 6_000
# The status where a program couldn't be built: a shell's for a command that can't be run.
NOT_BUILT = 126
INTERRUPTED = 130


class CannotBuild(Exception):
    """Why nothing can be built."""


def text_of(path):
    """Returns the text of a file, or none where there is no such file."""
    with contextlib.suppress(OSError), open(path, encoding="utf-8", errors="replace") as file:
        return file.read()
    return ""


def write_whole(path, text):
    """Writes a file by one step, so that nobody ever finds a part of it."""
    with open(f"{path}.new", "w", encoding="utf-8") as file:
        file.write(text)
    os.replace(f"{path}.new", path)


class Kit:
    """The kit whose command `rt` is on the path."""

    def __init__(self):
        command = shutil.which("rt")
        if not command:
            raise CannotBuild("the command rt of Rattle's kit is not on the path")
        self.folder = os.path.dirname(os.path.dirname(os.path.realpath(command)))
        self.identity = text_of(f"{self.folder}/KIT-ID") + text_of(f"{self.folder}/WHAT")

    def has(self, library):
        """Says whether the kit has a library of that name."""
        return os.path.isdir(f"{self.folder}/rlibs/{library}.rlib")


class Crate:
    """A crate: its name, the libraries of the kit and the crates that it cites, and where it lies."""

    def __init__(self, name, of_kit, cites):
        self.name, self.of_kit, self.cites = name, of_kit, cites
        self.folder = os.path.join(TOP, "crates", name)
        self.is_program = os.path.exists(os.path.join(self.folder, "src", "main.rt"))
        self.room = os.path.join(STORE, name)
        self.rlib = os.path.join(self.room, f"{name}.rlib")
        self.made = os.path.join(self.folder, "out", name) if self.is_program else os.path.join(self.rlib, "format")
        # All crates below, each behind those that it cites.
        self.below = []
        for crate in cites:
            self.below += [it for it in (*crate.below, crate) if it not in self.below]
        self.own, self.sum, self.size, self.chain = "", "", 0, 0

    def texts(self):
        """Gives the crate's files, in order: for each its path and what it holds."""
        paths = []
        for part in PARTS:
            for folder, _, names in os.walk(os.path.join(self.folder, part)):
                paths += [os.path.join(folder, name) for name in names if name.endswith((".rt", ".antt"))]
        for path in sorted(paths):
            with open(path, "rb") as file:
                yield os.path.relpath(path, self.folder), file.read()

    def own_sum(self):
        """Returns the sum of the crate's files, and how many bytes those of its code have."""
        added, size = hashlib.sha256(), 0
        for path, text in self.texts():
            added.update(f"{path} {len(text)}\n".encode() + text)
            size += len(text) if path.endswith(".rt") else 0
        return added.hexdigest(), size

    def add_up(self, kit):
        """Sets the sum of all that the crate is made from, where those of what it cites are set."""
        self.own, self.size = self.own_sum()
        below = [f"{crate.name} {crate.sum}" for crate in self.cites]
        whole = "\n".join([kit.identity, self.name, " ".join(self.of_kit), *below, self.own])
        self.sum = hashlib.sha256(whole.encode()).hexdigest()

    def stamp(self):
        """Returns what is noted where the crate is built: its sum, and that of a program's file, which `rt` writes too."""
        if not self.is_program:
            return self.sum
        try:
            with open(self.made, "rb") as file:
                return f"{self.sum} {hashlib.sha256(file.read()).hexdigest()}"
        except OSError:
            return f"{self.sum} none"

    def is_built(self):
        """Says whether what lies there was made from what lies here."""
        return os.path.exists(self.made) and text_of(os.path.join(self.room, "sum")) == self.stamp()

    def forget(self):
        """Has nothing of the crate be taken for built."""
        with contextlib.suppress(FileNotFoundError):
            os.remove(os.path.join(self.room, "sum"))

    def note(self):
        """Notes the last line of the proof, and last that the crate is built, so that no half is taken for a whole."""
        write_whole(os.path.join(self.room, "proof"), self.proof_said())
        write_whole(os.path.join(self.room, "sum"), self.stamp())

    def said(self):
        """Returns what was said while the crate was built."""
        return text_of(os.path.join(self.room, "said"))

    def proof_said(self):
        """Returns the last line of the proof as it was said, or none."""
        lines = re.findall(r"^logic=proved .*\n", self.said(), re.M)
        return lines[-1] if lines else ""

    def proof(self):
        """Returns the last line of the proof, as it was noted."""
        return text_of(os.path.join(self.room, "proof"))

    def words(self, kit, jobs):
        """Returns the words that say what is built over what, in the order of `rt`."""
        words = ["--crate-name", self.name, "src/main.rt" if self.is_program else "src/lib.rt"]
        for name in ("std", *self.of_kit):
            words += ["--extern", f"{name}={kit.folder}/rlibs/{name}.rlib"]
        words += ["-L", f"dependency={kit.folder}/rlibs"]
        for crate in self.cites:
            words += ["--extern", f"{crate.name}={crate.rlib}"]
        for crate in self.below:
            words += ["-L", f"dependency={crate.room}"]
        words += ["--antt-project", f"{kit.folder}/rattle/logic/antt-project.json"]
        words += ["--logic-built", f"{kit.folder}/logic_built"]
        return [*words, "--links", f"{self.name}=", "--jobs", str(jobs)]

    def commands(self, kit, jobs):
        """Returns the commands that build the crate, one behind the other."""
        build = [f"{kit.folder}/bin/rattle", "build", *self.words(kit, jobs)]
        if not self.is_program:
            return [[*build, "--statements", "-o", self.rlib]]
        toolchain, compiled = ["--toolchain", f"{kit.folder}/toolchain"], os.path.join(self.room, f"{self.name}.o")
        link = [f"{kit.folder}/bin/rattle-link", "--target", "x86_64-unknown-linux-gnu", *toolchain]
        link += ["-o", f"{self.made}.new"]
        link += [compiled, f"{kit.folder}/c/libos_c.a", f"{kit.folder}/c/liblibc_c.a"]
        return [[*build, *toolchain, "--backend", "llvm", "-o", compiled], link]


def crates_below(program, kit):
    """Returns the crates that a program stands on and itself, each behind those that it cites, with their sums."""
    made = {}
    for line in text_of(os.path.join(TOP, "crates.txt")).splitlines():
        head, _, tail = line.partition("#")[0].partition(":")
        if not head.strip():
            continue
        name, cited = head.split()[0], tail.replace(",", " ").split()
        lost = [it for it in cited if it not in made and not kit.has(it)]
        if lost:
            raise CannotBuild(f"crates.txt: {name} cites {lost[0]}, no crate of a line above and no library of the kit")
        made[name] = Crate(name, [it for it in cited if it not in made], [made[it] for it in cited if it in made])
    if program not in made or not made[program].is_program:
        raise CannotBuild(f"crates.txt has no program {program}")
    crates = [*made[program].below, made[program]]
    for crate in crates:
        crate.add_up(kit)
    for crate in reversed(crates):
        above = [it.chain for it in crates if crate in it.cites]
        crate.chain = LEAST + crate.size + max(above, default=0)
    return crates


class Group:
    """A group of processes, which all end where this one does, however it ends."""

    def __init__(self):
        ends, self.held = os.pipe()
        # The read returns once nobody holds the other end.
        words = ["sh", "-c", "read _; kill -9 0"]
        how = {"stdin": ends, "stdout": subprocess.DEVNULL, "stderr": subprocess.DEVNULL}
        self.first = subprocess.Popen(words, preexec_fn=os.setpgrp, **how)
        os.close(ends)

    def begin(self, words, folder, log, steps_back):
        """Begins a command in a folder, with its output in a file. One that steps back leaves the processors to others."""

        def join():
            """Joins the group, before the command begins."""
            os.setpgid(0, self.first.pid)
            os.nice(10 if steps_back else 0)

        how = {"stdin": subprocess.DEVNULL, "stdout": log, "stderr": log, "cwd": folder}
        return subprocess.Popen(words, preexec_fn=join, **how)

    def end(self):
        """Ends all that runs."""
        with contextlib.suppress(ProcessLookupError):
            os.killpg(self.first.pid, signal.SIGKILL)
        self.first.wait()
        os.close(self.held)


class Work:
    """The build of one crate, with so many jobs."""

    def __init__(self, crate, kit, jobs, group, steps_back):
        self.crate, self.jobs, self.group, self.steps_back = crate, jobs, group, steps_back
        shutil.rmtree(crate.room, ignore_errors=True)
        os.makedirs(crate.room)
        if crate.is_program:
            os.makedirs(os.path.dirname(crate.made), exist_ok=True)
        self.commands = crate.commands(kit, jobs)
        self.go_on()

    def go_on(self):
        """Begins the next command."""
        with open(os.path.join(self.crate.room, "said"), "a", encoding="utf-8") as log:
            self.process = self.group.begin(self.commands.pop(0), self.crate.folder, log, self.steps_back)

    def has_ended(self):
        """Says whether all has been done, or something failed; else goes on to the next command once one has ended."""
        if self.process.poll() is None:
            return False
        if self.process.returncode or not self.commands:
            return True
        self.go_on()
        return False

    def fault(self):
        """Puts what was made in its place, and returns why the crate isn't built, or none."""
        crate = self.crate
        if self.process.returncode or not crate.proof_said():
            return f"the crate {crate.name} isn't proved and built (status {self.process.returncode})\n{crate.said()}"
        if crate.own_sum()[0] != crate.own:
            return f"a file of the crate {crate.name} was changed while it was being proved: call again\n"
        if crate.is_program:
            os.replace(f"{crate.made}.new", crate.made)
        crate.note()
        return ""


class Build:
    """The crates that are to be built, those that are being built, and how far that is."""

    def __init__(self, crates, kit, group):
        self.kit, self.group, self.total = kit, group, len(crates)
        self.left, self.running, self.alone, self.why = [], [], set(), ""
        for crate in crates:
            if not crate.is_built() or any(it in self.left for it in crate.cites):
                self.left.append(crate)
        for crate in self.left:
            crate.forget()
        self.cores, self.began, self.told = len(os.sched_getaffinity(0)), time.monotonic(), ""

    def begin(self):
        """Begins the crates that are ready, those first for which the longest chain of others waits.

        The first of all that are ready or running begins whatever runs, and gets the processors that no other crate asks for;
        the others begin while there is a processor for one more, and step back for the first."""
        waits = {*self.left, *(work.crate for work in self.running)}
        ready = sorted((it for it in self.left if not waits & {*it.cites}), key=lambda it: -it.chain)
        for at, crate in enumerate(ready):
            spare = self.cores - sum(work.jobs for work in self.running)
            is_first = at == 0 and all(crate.chain >= work.crate.chain for work in self.running)
            if crate in self.alone or self.alone & {work.crate for work in self.running}:
                if self.running:
                    continue
                jobs = 1
            elif is_first:
                jobs = min(self.cores, max(JOBS, spare - len(ready) + 1))
            elif spare > 0:
                jobs = 1
            else:
                break
            self.left.remove(crate)
            self.running.append(Work(crate, self.kit, jobs, self.group, not is_first))

    def look(self):
        """Takes what has ended. What was killed, most likely for want of memory, is tried once more, alone."""
        for work in [it for it in self.running if it.has_ended()]:
            self.running.remove(work)
            if work.process.returncode == -signal.SIGKILL and work.crate not in self.alone:
                self.alone.add(work.crate)
                self.left.append(work.crate)
            else:
                why = work.fault()
                self.why = self.why or why

    def tell(self):
        """Says how far the build is."""
        names = ", ".join(work.crate.name for work in self.running)
        minutes, seconds = divmod(int(time.monotonic() - self.began), 60)
        done = self.total - len(self.left) - len(self.running)
        tell(f"{done} of {self.total} crates are proved, {minutes} min {seconds:02} s; proving {names}", names != self.told)
        self.told = names

    def make(self):
        """Builds all that is left, and returns why that failed, or none."""
        while (self.left or self.running) and not self.why:
            self.begin()
            self.tell()
            time.sleep(0.05)
            self.look()
        return self.why


def tell(text, is_new=True):
    """Shows a line in the place of the last on a terminal, or adds one that is new elsewhere, if that is wanted."""
    if sys.stderr.isatty():
        width = os.get_terminal_size(sys.stderr.fileno()).columns or 80
        sys.stderr.write(f"\r\033[K{f'velkatsa: {text}'[: width - 1] if text else ''}")
    elif os.environ.get("VELKATSA_VERBOSE") and text and is_new:
        sys.stderr.write(f"velkatsa: {text}\n")
    sys.stderr.flush()


def is_newest(made):
    """Says whether a file is there, and no source is newer: what the script velkatsa asks at each call."""
    places = [os.path.join(TOP, "crates.txt")]
    for name in os.listdir(os.path.join(TOP, "crates")):
        places += [it for it in (os.path.join(TOP, "crates", name, part) for part in PARTS) if os.path.isdir(it)]
    words = ["find", *places, "-newer", made, "-print", "-quit"]
    found = subprocess.run(words, stdin=subprocess.DEVNULL, capture_output=True)
    return found.returncode == 0 and not found.stdout


def take_turn(lock, program):
    """Waits until nobody else builds, and says whether there is something left to do then: what others made may be all."""
    has_waited = False
    while True:
        try:
            fcntl.flock(lock, fcntl.LOCK_EX | fcntl.LOCK_NB)
            return not (has_waited and is_newest(program.made))
        except BlockingIOError:
            tell("another call builds, or rt is at work; waiting for it", not has_waited)
            has_waited = True
        except OSError:
            # Some file systems have no locks.
            return True
        if program.is_built():
            return False
        time.sleep(0.5)


def build(name, kit):
    """Builds a program, and returns why that failed, or none."""
    program = crates_below(name, kit)[-1]
    # The folder that rt locks while it works on the program.
    lock = os.open(os.path.join(TOP, "crates", PROGRAM), os.O_RDONLY)
    if not take_turn(lock, program):
        return ""
    began = time.time()
    crates = crates_below(name, kit)
    group, running = Group(), []
    try:
        made = Build(crates, kit, group)
        running = made.running
        why = made.make()
    finally:
        group.end()
        for work in running:
            work.process.wait()
    if not why:
        # What is changed from now on is newer than the program, also what was changed while it was built.
        os.utime(crates[-1].made, (began, began))
    return why


def interrupt(*_):
    """Ends the build."""
    signal.signal(signal.SIGINT, signal.SIG_IGN)
    signal.signal(signal.SIGTERM, signal.SIG_IGN)
    sys.exit(INTERRUPTED)


def main(words):
    """Builds the program that the words name, and returns the status."""
    if sys.stderr is None:
        # It was closed.
        sys.stderr = open(os.devnull, "w", encoding="utf-8")
    signal.signal(signal.SIGINT, interrupt)
    signal.signal(signal.SIGTERM, interrupt)
    try:
        why = build(words[0] if words else PROGRAM, Kit())
    except (CannotBuild, OSError) as error:
        why = f"{error}\n"
    finally:
        tell("")
    sys.stderr.write(f"velkatsa: {why}" if why else "")
    return NOT_BUILT if why else 0


if __name__ == "__main__":
    sys.exit(main(sys.argv[1:]))
