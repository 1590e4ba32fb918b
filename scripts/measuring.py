"""What the scripts that time things share: small programs that stand outside the gate."""
import os
import shutil
import subprocess
import sys

TOP = os.path.dirname(os.path.dirname(os.path.abspath(__file__)))


def listed(crates):
    """The lines of crates.txt for these crates."""
    with open(os.path.join(TOP, "crates.txt"), encoding="utf-8") as lines:
        return [line for line in lines if line.split(":")[0] in crates]


def made(name, crates, words, folder):
    """The program scripts/NAME/main.rt.txt, made in this folder over copies of these crates. It is proved and
    optimised as burr is, in half a minute where the crates were made before; these words are given to its first
    run. The command rt of the Rattle kit has to be on the PATH."""
    crate = os.path.join(folder, "crates", name)
    os.makedirs(os.path.join(crate, "src"))
    shutil.copy(os.path.join(TOP, "scripts", name, "main.rt.txt"), os.path.join(crate, "src", "main.rt"))
    for used in crates:
        # with its dates, so that the library that was made of it still counts
        path = os.path.join("crates", used)
        unused = shutil.ignore_patterns("incremental")
        shutil.copytree(os.path.join(TOP, path), os.path.join(folder, path), ignore=unused)
    with open(os.path.join(folder, "crates.txt"), "w", encoding="utf-8") as file:
        file.write("".join(listed(crates)) + f"{name}: {' '.join(crates)}\n")
    making = subprocess.run(
        ["rt", "run", "--jobs", "1", "--", *words],
        cwd=crate,
        stdin=subprocess.DEVNULL,
        stdout=subprocess.PIPE,
        stderr=subprocess.STDOUT,
    )
    program = os.path.join(crate, "out", name)
    if not os.access(program, os.X_OK):
        sys.exit(making.stdout.decode() + "the program could not be made")
    return program


def spent(words, given=b""):
    """The processor time of one run in milliseconds, and what it prints. It is user and system time together,
    since their parts in a short run are guessed by ticks."""
    process = subprocess.Popen(words, stdin=subprocess.PIPE, stdout=subprocess.PIPE)
    process.stdin.write(given)
    process.stdin.close()
    printed = process.stdout.read()
    _, _, usage = os.wait4(process.pid, 0)
    return (usage.ru_utime + usage.ru_stime) * 1000, printed
