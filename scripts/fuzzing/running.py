"""Runs burr under limits, and judges what it answers by its form."""
import collections
import multiprocessing
import os
import re
import resource
import signal

TOP = os.path.dirname(os.path.dirname(os.path.dirname(os.path.abspath(__file__))))
BURR = os.path.abspath(os.environ.get("BURR", os.path.join(TOP, "crates", "burr", "out", "burr")))
LIMITS = (
    (resource.RLIMIT_AS, 64 << 20),
    (resource.RLIMIT_STACK, 512 << 10),
    (resource.RLIMIT_CPU, 10),
    (resource.RLIMIT_CORE, 0),
    # what is printed is held in memory; beyond this burr has to say that it cannot write
    (resource.RLIMIT_FSIZE, 64 << 20),
)
# seconds after which a run counts as one without an end: it may wait long for a processor
PATIENCE = 900

NAME = rb"[A-Za-z][A-Za-z0-9_-]{0,31}"
NAMES_OF_PIECES = NAME + rb"(?:," + NAME + rb")*"
MOVE = re.compile(rb"(\d+) t\d+ " + NAMES_OF_PIECES + rb" [+-][xyz] \d+( out)?")
CLOSING = re.compile(
    rb"apart in (?P<apart>\d+) steps|waiting -?\d+ -?\d+ after (?P<waiting>\d+) steps|stopped after \d+ steps"
    rb"|trap (?:[1-9]|1[0-7]) [A-Za-z]+ proc \d+ pc \d+ after \d+ steps"
)
REFUSAL = re.compile(
    rb"refused (?:input|(?:A[1-7]|P[1-5]|answers|sheet|frame) line \d+|A8 line \d+ " + NAME + b" " + NAME + rb"|C[1-6] at \d+"
    rb"|V\d+ proc \d+ pc \d+(?: pieces " + NAME + b" " + NAME + rb")?(?: point(?: -?\d+)+)?)\n"
)
REASON = re.compile(REFUSAL.pattern + rb"(?:[ -~]+\n)+`burr explain (?:[APV]\d+|sheet|frame)` says more\n")
TOLD = re.compile(rb"(?:\n(?:[ -~]+\n)+)+")
NOTE = re.compile(rb"    answers:(?: -?\d+)+\n")
WITH_REASON = ("why", "trace", "frames", "plan")
ACCEPTED = re.compile(rb"accepted cost (\d+) budget (\d+) looks \d+\n")
REPLY = re.compile(
    rb"refused (?:S[1-4]|command)\n|after \d+ steps(?: asks -?\d+ -?\d+| ended)?\n"
    rb"|after \d+ steps proc \d+ pc \d+(?: ended)?\ntray \d+ grip (?:-|" + NAMES_OF_PIECES + rb")\n"
    rb"slots(?: (?:-|-?\d+)){8}\nstack(?: -|(?: -?\d+)+)\n(?:" + NAME + rb" (?:apart|tray \d+ at -?\d+ -?\d+ -?\d+)\n)+"
)
LISTED_PAIR = re.compile(
    rb"(?P<number>\d+) (?P<said>0 " + ACCEPTED.pattern + rb"|1 refused pair\n|1 " + REFUSAL.pattern
    + rb"|3 cannot read\n|4 no memory\n)"
)
CELLS = re.compile(rb"(?:[A-Za-z][A-Za-z0-9_-]*(?: (?:0|-?[1-9][0-9]*)){3}\n)+")
LISTED = re.compile(rb"(?:[ -~]+\n)+")
FAULT = re.compile(rb"cannot (?:read|write) .*\n", re.DOTALL)
PROGRESS = re.compile(rb"(frames: [0-9]+00 runs\n)*")
COMPLAINT = re.compile(
    rb"error: (?:a word of the command line is not UTF-8|nothing is explained under .*"
    rb"|OUT is (?:TEXT|PLAN|SHEET|ASSEMBLY) itself: .*)\n"
    rb"|error: (?:unrecognized subcommand '.*'|unexpected argument '.*' found"
    rb"|unexpected value '.*' for '.*' found; no more were expected|the argument '.*' cannot be used multiple times"
    rb"|the following required arguments were not provided:(?:\n  <[A-Z]+>(?:\.\.\.)?)+)\n(?:\n  tip: .*\n)?\n"
    rb"Usage: burr (?:help \[COMMAND\]\.\.\.\n|[^\n]+\n(?:       burr < INPUT\n)?\nFor more information, try '--help'.\n)",
    re.DOTALL,
)

Answer = collections.namedtuple("Answer", "status output complaint")


class Wrong(Exception):
    """What burr should not have done."""


def closing_of(sheet):
    """The match of a sheet's last line, where the lines before it go with each other; else None."""
    lines = sheet.split(b"\n")
    if len(lines) < 3 or lines.pop():
        return None
    closing, levels = lines.pop(), lines.pop()
    counts, last_out = [], 0
    for number, line in enumerate(lines, 1):
        move = MOVE.fullmatch(line)
        if not move or int(move[1]) != number:
            return None
        if move[2]:
            counts.append(b"%d" % (number - last_out))
            last_out = number
    return CLOSING.fullmatch(closing) if levels == b"levels " + (b".".join(counts) or b"-") else None


def parts_of(command, output):
    """What is printed, of `trace` what `try` prints, and what it tells of labels; of `frames` without the answers of the
    run whose sheet it prints."""
    if command == "frames":
        return NOTE.sub(b"", output), b""
    end = output.find(b"\n\n")
    return (output[: end + 1], output[end + 1 :]) if command == "trace" and end >= 0 else (output, b"")


def is_dialogue(output):
    """Whether this is nothing but replies of the stepper."""
    place = 0
    while place < len(output):
        reply = REPLY.match(output, place)
        if not reply:
            return False
        place = reply.end()
    return True


def worst_of(output):
    """The greatest status of the lines of `judge`; None where this is not lines of it, numbered from 1."""
    place, number, worst = 0, 0, 0
    while place < len(output):
        line, number = LISTED_PAIR.match(output, place), number + 1
        if not line or int(line["number"]) != number:
            return None
        place, worst = line.end(), max(worst, int(line["said"][:1]))
    return worst


def is_done(command, output):
    """Whether a command may print this with status 0."""
    if command in ("asm", "upgrade", "plan"):
        return not output
    if command == "frames":
        return not output or output.startswith(b"not all answers were tried: ")
    if command in ("run", "try", "trace", None):
        closing = closing_of(output)
        return closing and closing["apart"]
    if command == "step":
        return is_dialogue(output)
    return {"cells": CELLS, "check": ACCEPTED, "list": LISTED, "why": ACCEPTED}[command].fullmatch(output)


def judge(command, answer, is_free):
    """Tells whether status, output and complaint go together. Where `is_free`, the words may have asked for help, and
    files may be missing or too large."""
    status, output, complaint = answer
    if command == "frames":
        complaint = complaint.removeprefix(PROGRESS.match(complaint).group())
    if command == "judge" and not complaint and worst_of(output) == status:
        return
    output, told = parts_of(command, output)
    if told and not TOLD.fullmatch(told):
        raise Wrong(f"trace tells {told[-200:]}")
    refusals = (REASON, REFUSAL) if command in WITH_REASON else (REFUSAL,)
    closing = closing_of(output) if status in (1, 5) else None
    has_failed = is_free and (command in ("judge", "step") or not output or complaint == b"cannot write -\n")
    is_known = {
        0: lambda: not complaint and (is_free or is_done(command, output)),
        1: lambda: not complaint
        and (any(form.fullmatch(output) for form in refusals) or closing and not closing["apart"] and not closing["waiting"]),
        2: lambda: has_failed and COMPLAINT.fullmatch(complaint),
        3: lambda: has_failed and FAULT.fullmatch(complaint),
        4: lambda: has_failed and complaint == b"no memory\n",
        5: lambda: not complaint and closing and closing["waiting"],
    }
    if status not in is_known or not is_known[status]():
        raise Wrong(f"{command}: status {status} with {output[-200:]} {complaint[:200]}")


def names_of(output):
    """The names of the refusals in what was printed, and the one of the trap, closing or verdict in its last line."""
    found = {name.decode() for name in re.findall(rb"^refused (\w+)", output, re.MULTILINE)}
    last = output[output.rfind(b"\n", 0, -1) + 1 :].decode("ascii", "replace").split()
    return found | {f"trap {last[1]}" if last[:1] == ["trap"] else last[0] if last else ""}


def started(words):
    """Starts burr with these words on the files of the folder. Gives how it ended."""
    new = os.O_WRONLY | os.O_CREAT | os.O_TRUNC
    streams = [
        (os.POSIX_SPAWN_OPEN, 0, "given", os.O_RDONLY, 0),
        (os.POSIX_SPAWN_OPEN, 1, "output", new, 0o600),
        (os.POSIX_SPAWN_OPEN, 2, "complaint", new, 0o600),
    ]
    process = os.posix_spawn(BURR, ["burr", *words], os.environ, file_actions=streams)
    signal.signal(signal.SIGALRM, lambda *_: os.kill(process, signal.SIGKILL))
    signal.alarm(PATIENCE)
    ended = os.waitpid(process, 0)[1]
    signal.alarm(0)
    return ended


def serve(pipe):
    """Starts what is asked for, under the limits, until the pipe is closed."""
    for limit, most in LIMITS:
        resource.setrlimit(limit, (most, resource.getrlimit(limit)[1]))
    try:
        while True:
            pipe.send(started(pipe.recv()))
    except EOFError:
        return


def launcher():
    """A pipe to a new process that starts burr for the words that are sent to it. It has the limits itself, and hands
    them on to what it starts: so a run takes no other program that sets them. It is small, and must not become old,
    since its own processor time is limited too."""
    here, there = multiprocessing.Pipe()
    if os.fork() == 0:
        here.close()
        try:
            serve(there)
        finally:
            os._exit(0)
    there.close()
    return here


class Runner:
    """Runs burr in a folder, and keeps what it has answered."""

    def __init__(self, folder):
        os.chdir(folder)
        self.launcher = launcher()
        self.met, self.runs, self.containers = set(), 0, {}

    def put(self, name, content):
        """Makes a file of the folder with this content."""
        with open(name, "wb") as file:
            file.write(content)

    def get(self, name):
        """The content of a file of the folder, None where there is no such file."""
        try:
            with open(name, "rb") as file:
                return file.read()
        except FileNotFoundError:
            return None

    def begin(self):
        """Empties the folder, and forgets what was answered."""
        self.met = set()
        for name in os.listdir("."):
            os.remove(name)

    def run(self, *words, given=b"", is_free=False):
        """Runs burr with these words and this standard input, and judges the answer by its form."""
        self.runs += 1
        self.put("given", given)
        self.launcher.send(words)
        ended = self.launcher.recv()
        if os.WIFSIGNALED(ended):
            raise Wrong(f"{words}: signal {os.WTERMSIG(ended)}")
        command = words[0] if words else None
        answer = Answer(os.WEXITSTATUS(ended), self.get("output"), self.get("complaint"))
        judge(command, answer, is_free)
        self.met.add(f"status {answer.status}")
        if command not in ("list", "explain", "help"):
            self.met |= names_of(answer.output)
        return answer

    def same(self, answer, *words, given=b""):
        """Runs burr, which has to give this answer."""
        other = self.run(*words, given=given)
        if other != answer:
            raise Wrong(f"{words} gives {other}, and before came {answer}")

    def container_of(self, text):
        """The container of an example, None where its text is refused."""
        if text not in self.containers:
            self.put("text", text)
            self.run("asm", "text", "made")
            self.containers[text] = self.get("made")
        return self.containers[text]
