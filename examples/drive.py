"""Leads a gripper along a plan, with a journal by which it goes on where it was stopped: docs/GRIPPER.md says how.
usage: python3 examples/drive.py ASSEMBLY PLAN JOURNAL, with answers on standard input; BURR names the program."""
import os
import sys

sys.path.insert(0, os.path.join(os.path.dirname(os.path.abspath(__file__)), "..", "library"))
from burr import Drive, End, Failed, Question, Refused


def make(move):
    """Here a real gripper makes the move. On return the move is made."""
    print(move, flush=True)


def ask(what, choices):
    """Asks the operator until one of the choices comes."""
    line = None
    while line not in map(str, choices):
        line = input(f"{what}\n").strip()
    return line


def note(journal, line):
    journal.write(line.encode() + b"\n")
    os.fsync(journal)  # on return the line is on the disk


def lead(assembly, plan, path):
    """Makes the moves of the plan that by the journal are not made yet."""
    with Drive(assembly, plan, os.environ.get("BURR", "./burr")) as drive, open(path, "ab+", 0) as journal:
        journal.seek(0)
        *lines, cut = journal.read().decode().split("\n")
        journal.truncate(journal.tell() - len(cut))  # a last line without its line feed counts as not written
        if not lines:
            note(journal, drive.ready)
        elif lines[0] != drive.ready:
            sys.exit("the assembly and the plan are others than those of the journal")
        answers = dict(map(int, line.split()[1:]) for line in lines if line.startswith("answer"))
        made = sum(line.startswith("done") for line in lines)
        while not isinstance(told := drive.go_to(made) or drive.next(), End):
            if isinstance(told, Question):
                if told.number not in answers:
                    answers[told.number] = int(ask(told, range(told.low, told.high + 1)))
                    note(journal, f"answer {told.number} {answers[told.number]}")
                drive.answer(told.number, answers[told.number])
            else:
                half_done = lines[-1:] == [f"begin {told.number}"]
                if not half_done or ask(f"half done: {told}: is it made now? yes or no", ["yes", "no"]) == "no":
                    note(journal, f"begin {told.number}")
                    make(told)
                note(journal, f"done {told.number}")
                made = told.number
        print(told)


if __name__ == "__main__":
    try:
        lead(*sys.argv[1:])
    except (EOFError, Failed, Refused) as fault:
        sys.exit(str(fault))
