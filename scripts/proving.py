"""How crates are proved side by side, each in the time and the memory that it takes: what prove-crates and wrong-bodies share."""
import concurrent.futures
import fcntl
import hashlib
import os
import re
import shutil
import subprocess
import sys
import time

TOP = os.path.dirname(os.path.dirname(os.path.abspath(__file__)))
# the memory of a check: at least, for each line of code below, for each of its own, and the part more of a second job
LEAST, LINE_BELOW, OWN_LINE, EACH_JOB = 600_000_000, 40_000, 400_000, 0.6
# Which part of the longest chain is long, and the jobs of a crate before it: two end in some six tenths of the time of one,
# for a tenth more of processor time, and four in half of it, for a third more, so that they pay where processors are idle.
LONG, PRESSING_JOBS = 0.9, 2
# the processor seconds that a crate's proof takes, as the gate measured them, and for each line of src where that is not known
SECONDS = {
    "burr_why": 444, "burr_program": 436, "burr_asm": 342, "burr_trace": 324, "burr_judge": 277, "burr_frames": 274,
    "burr_container": 269, "burr_c": 220, "burr_assembly": 216, "burr_state": 195, "burr_from_sheet": 173, "burr_blocking": 165,
    "burr_runs": 141, "burr_step": 136, "burr_verify": 125, "burr_plantext": 111, "burr": 105, "burr_lines": 104,
    "burr_code": 101, "burr_bench": 95,
}
SECONDS_A_LINE = 0.1


class Crate:
    """A crate of the repository, with those below it, lowest first."""

    def __init__(self, name, line, uses, known):
        self.name = name
        self.folder = os.path.join(TOP, "crates", name)
        self.made = os.path.join(self.folder, "out", "made")
        self.rlib, self.sum = os.path.join(self.made, f"{name}.rlib"), os.path.join(self.made, "sum")
        self.is_program = os.path.isfile(os.path.join(self.folder, "src", "main.rt"))
        self.is_archive = "staticlib" in line.partition(":")[0].split()
        self.product = self.rlib
        if self.is_program or self.is_archive:
            self.product = os.path.join(self.folder, "out", name if self.is_program else f"lib{name}.a")
        self.uses = [known[it] for it in uses if it in known]
        self.of_kit = ["std", *(it for it in uses if it not in known)]
        self.below = []
        for used in self.uses:
            self.below += [it for it in [*used.below, used] if it not in self.below]
        self.lines = lines_of(os.path.join(self.folder, "src"))
        self.seconds = SECONDS.get(name, SECONDS_A_LINE * self.lines)
        lines_below = sum(it.lines for it in self.below)
        self.memory = LEAST + OWN_LINE * self.lines + LINE_BELOW * lines_below
        self.line = line

    def stamp(self):
        """The checksum of all that the crate is made from: its own files, and the libraries below as they were built."""
        summed = hashlib.sha256(repr([KIT_NAME, self.line]).encode())
        for part in ("src", "specs", "proofs"):
            add_files(summed, os.path.join(self.folder, part))
        for it in self.below:
            summed.update(read(it.sum).encode())
        return summed.hexdigest()

    def inputs(self):
        """The words that say what a check or a build of the crate reads."""
        words = ["--crate-name", self.name, "src/main.rt" if self.is_program else "src/lib.rt"]
        for name in self.of_kit:
            words += ["--extern", f"{name}={KIT}/rlibs/{name}.rlib"]
        words += ["-L", f"dependency={KIT}/rlibs"]
        for it in self.uses:
            words += ["--extern", f"{it.name}={it.rlib}"]
        for it in self.below:
            words += ["-L", f"dependency={it.made}"]
        words += ["--antt-project", f"{KIT}/rattle/logic/antt-project.json", "--logic-built", f"{KIT}/logic_built"]
        return [*words, "--crate-type", "staticlib"] if self.is_archive else words

    def words(self, jobs):
        """The words that build the crate."""
        words = [*self.inputs(), "--jobs", str(jobs)]
        if not self.is_program and not self.is_archive:
            return [*words, *STATEMENTS, "-o", self.product]
        compiled = f"out/made/{self.name}.o" if self.is_program else self.product
        return [*words, "--toolchain", f"{KIT}/toolchain", "--backend", "llvm", "-o", compiled]

    def commands(self, jobs):
        """What makes the crate, one after the other."""
        yield [f"{KIT}/bin/rattle", "build", *self.words(jobs)]
        if self.is_program:
            target = ["--target", "x86_64-unknown-linux-gnu", "--toolchain", f"{KIT}/toolchain"]
            parts = [f"out/made/{self.name}.o", f"{KIT}/c/libos_c.a", f"{KIT}/c/liblibc_c.a"]
            yield [f"{KIT}/bin/rattle-link", *target, "-o", self.product, *parts]

    def make(self, jobs, is_pressing):
        """Whether the crate is proved, and made. What does not press gets what is left of the processors."""
        stamp, kept, log = self.stamp(), os.path.join(self.made, "stamp"), os.path.join(self.made, "log")
        if os.path.exists(self.product) and os.path.exists(kept) and read(kept) == stamp:
            return True
        began = time.monotonic()
        tell(f"proving {self.name} by {jobs} {'job' if jobs == 1 else 'jobs'}")
        shutil.rmtree(self.made, ignore_errors=True)
        os.makedirs(self.made)
        with open(log, "wb") as said:
            to = {"cwd": self.folder, "stdin": subprocess.DEVNULL, "stdout": said, "stderr": said}
            first = [] if is_pressing else ["nice"]
            is_made = all(subprocess.run([*first, *it], check=False, **to).returncode == 0 for it in self.commands(jobs))
        if is_made and stamp != self.stamp():
            tell(f"{self.name} was edited meanwhile: run this again")
            return False
        if is_made:
            summed = hashlib.sha256()
            add_files(summed, self.rlib)
            write(self.sum, summed.hexdigest())
            write(kept, stamp)
        tell(f"{self.name} {'proved' if is_made else f'not proved: {log} says why'}, {time.monotonic() - began:.0f} s")
        return is_made


def add_files(summed, folder):
    """Adds the files of a folder, their places and their bytes, to a checksum."""
    for at, folders, names in os.walk(folder):
        folders.sort()
        for name in sorted(names):
            with open(os.path.join(at, name), "rb") as file:
                summed.update(repr((os.path.relpath(at, folder), name, file.read())).encode())


def read(name):
    """The text of a small file."""
    with open(name, encoding="ascii") as file:
        return file.read()


def write(name, text):
    """Makes a small file of a text."""
    with open(name, "w", encoding="ascii") as file:
        file.write(text)


def said_by(*words):
    """What a command prints."""
    return subprocess.run(words, capture_output=True, text=True, check=True).stdout.strip()


# the folder of the kit, what it calls itself, and the word for libraries without their proofs, which an older kit may lack
KIT, KIT_NAME = os.path.dirname(said_by("rt", "doc")), said_by("rt", "version")
STATEMENTS = ["--statements"] if "--statements" in said_by(f"{KIT}/bin/rattle", "build", "--help") else []


def lines_of(folder):
    """How many lines the files of a folder have."""
    count = 0
    for at, _, names in os.walk(folder):
        for name in names:
            with open(os.path.join(at, name), "rb") as file:
                count += file.read().count(b"\n")
    return count


def listed():
    """What crates.txt has: of each crate its line and the libraries that it uses."""
    found = {}
    with open(os.path.join(TOP, "crates.txt"), encoding="utf-8") as lines:
        for line in lines:
            named, _, uses = line.split("#")[0].partition(":")
            if named.split():
                found[named.split()[0]] = line, uses.split()
    return found


def crates_up_to(*wanted):
    """These crates of crates.txt and those that they stand on, lowest first."""
    found, known = listed(), {}

    def know(name):
        line, uses = found[name]
        for it in uses:
            if it in found and it not in known:
                know(it)
        known[name] = Crate(name, line, uses, known)

    for name in wanted:
        if name not in known:
            know(name)
    return list(known.values())


def tell(text):
    """Prints a line of what goes on, whole."""
    sys.stderr.write(f"burr: {text}\n")
    sys.stderr.flush()


def free_memory():
    """How many bytes are free for what is started."""
    with open("/proc/meminfo", encoding="ascii") as said:
        return 1024 * int(re.search(r"MemAvailable: *(\d+)", said.read())[1])


def are_made(crates):
    """Makes all these crates, lowest first, and answers whether all are made. A second run waits for the first."""
    with open(os.path.join(TOP, "crates.txt"), encoding="utf-8") as lock:
        fcntl.flock(lock, fcntl.LOCK_EX)
        return make_all(crates)


def make_all(crates):
    """Whether all crates are made."""
    processors, memory = len(os.sched_getaffinity(0)), 0.85 * free_memory()
    chain = {it: it.seconds for it in crates}
    for crate in reversed(crates):
        for it in crate.below:
            chain[it] = max(chain[it], chain[crate] + it.seconds)
    left, running, made = sorted(crates, key=lambda it: -chain[it]), {}, {}
    with concurrent.futures.ThreadPoolExecutor(max(1, len(crates))) as pool:
        while left or running:
            left = [it for it in left if all(made.get(below, True) for below in it.below)]
            ready = [it for it in left if all(below in made for below in it.below)]
            # how many jobs of each crate leave no processor idle
            each = -(-processors // max(1, len(running) + len(ready)))
            for crate in ready:
                room = memory - sum(taken for _, taken in running.values())
                is_pressing = chain[crate] >= LONG * max(chain[it] for it in left)
                if len(running) >= processors and not is_pressing or running and crate.memory > room:
                    continue
                spare = 1 + int((room / crate.memory - 1) / EACH_JOB)
                wanted = max(each, PRESSING_JOBS if is_pressing else 1)
                jobs = max(1, min(wanted, processors, spare))
                left.remove(crate)
                taken = crate.memory * (1 + EACH_JOB * (jobs - 1))
                running[pool.submit(crate.make, jobs, is_pressing)] = crate, taken
            for it in concurrent.futures.wait(running, return_when="FIRST_COMPLETED").done:
                made[running.pop(it)[0]] = it.result()
    return all(made.get(it) for it in crates)
