"""Leads a gripper by `burr drive`, which this module starts and talks with through pipes. Python 3.8 or later, and
nothing else. docs/GRIPPER.md says what each line means; examples/drive.py is a whole driver with a journal.

    with Drive("examples/cup.assembly", "examples/cup.plan") as drive:
        told = drive.next()
        while not isinstance(told, End):
            if isinstance(told, Question):
                drive.answer(told.number, told.low)
            else:
                print(told)
            told = drive.next()
"""
import re
import subprocess
import tempfile
from typing import NamedTuple, Optional, Tuple, Union

READY = re.compile(r"ready ([0-9a-f]{64})")
MOVE = re.compile(
    r"move ([0-9]+) t([0-9]+) ([A-Za-z0-9_,-]+) ([+-][xyz]) ([0-9]+)(?: out t([0-9]+))?(?: apart ([A-Za-z0-9_,-]+))?"
)
QUESTION = re.compile(r"ask ([0-9]+) (-?[0-9]+) (-?[0-9]+) proc ([0-9]+) pc ([0-9]+)")
END = re.compile(r"end ([0-9]+)")


class Move(NamedTuple):
    """The pieces `names` of a tray go as one along `direction` by `units`, and then out to the tray `out` where it is
    not None. The pieces `apart` are apart by that. Moves are numbered from 1."""

    number: int
    tray: int
    names: Tuple[str, ...]
    direction: str
    units: int
    out: Optional[int]
    apart: Tuple[str, ...]


class Question(NamedTuple):
    """The run asks for a number from `low` to `high`, at this place of the code. Questions are numbered from 1."""

    number: int
    low: int
    high: int
    procedure: int
    pc: int


class End(NamedTuple):
    """The run has ended after this number of steps, and all pieces are apart."""

    steps: int


class Refused(Exception):
    """burr refuses what was asked, and says so in this line; nothing has changed."""


class Failed(Exception):
    """burr has ended where an answer was due, or says what this module does not know."""

    def __init__(self, status, error):
        super().__init__(f"burr ended with status {status}: {error}")
        self.status, self.error = status, error


class Drive:
    """A run that is led move by move. `ready` is the digest of the assembly and the plan. Not for several threads."""

    def __init__(self, assembly, plan, program="./burr"):
        """Starts burr for an assembly and a plan, a container or a text. Refused where the plan is not accepted."""
        # a file and no pipe: burr never has to wait until it is read
        self._errors = tempfile.TemporaryFile()
        self._burr = subprocess.Popen(
            [program, "drive", assembly, plan],
            stdin=subprocess.PIPE,
            stdout=subprocess.PIPE,
            stderr=self._errors,
            encoding="utf-8",
            errors="replace",
        )
        try:
            self.ready = self._known(READY, self._line())[1]
        except BaseException:
            self.close()
            raise

    def next(self) -> Union[Move, Question, End]:
        """The next move, which then counts as made; or the question or the end at which the run stands, which is told
        each time."""
        line = self._ask("next")
        found = MOVE.fullmatch(line)
        if not found:
            return self._stop(line)
        number, tray, names, direction, units, out, apart = found.groups()
        return Move(
            int(number),
            int(tray),
            tuple(names.split(",")),
            direction,
            int(units),
            None if out is None else int(out),
            tuple(apart.split(",")) if apart else (),
        )

    def answer(self, question: int, number: int) -> None:
        """Answers the question of this number. Refused where it is not open or the answer does not fit."""
        self._known(re.compile(f"taken {question}"), self._ask(f"answer {question} {number}"))

    def go_to(self, number: int) -> Union[Question, End, None]:
        """Goes on, without telling the moves, until the move of this number is made: then None, else the question or
        the end that comes before. Refused where more moves are made already."""
        line = self._ask(f"goto {number}")
        return None if line == f"at {number}" else self._stop(line)

    def close(self) -> int:
        """Ends burr, waits until it has ended, and gives its status: 5 where the run stands at a question."""
        self._burr.communicate()
        if not self._errors.closed:
            self._errors.seek(0)
            self._error = self._errors.read().decode("utf-8", "replace")
            self._errors.close()
        return self._burr.returncode

    def __enter__(self):
        return self

    def __exit__(self, *_):
        self.close()

    def _ask(self, command):
        """A line to burr, and the line that answers it."""
        try:
            self._burr.stdin.write(command + "\n")
            self._burr.stdin.flush()
        except BrokenPipeError:
            pass  # burr has ended, and no line comes
        return self._line()

    def _line(self):
        line = self._burr.stdout.readline()
        if not line.endswith("\n"):
            raise self._failed(line)
        if line.startswith("refused "):
            raise Refused(line[:-1])
        return line[:-1]

    def _stop(self, line):
        found = QUESTION.fullmatch(line)
        if found:
            return Question(*map(int, found.groups()))
        return End(int(self._known(END, line)[1]))

    def _known(self, pattern, line):
        found = pattern.fullmatch(line)
        if not found:
            raise self._failed(line)
        return found

    def _failed(self, line):
        status = self.close()
        return Failed(status, (line + self._error).strip())
