"""What the scripts of this folder share: building a program, measuring it from outside, and finding peers to compare with."""
import os, shutil, subprocess, sys, time
from pathlib import Path

TOP = Path(__file__).resolve().parent.parent
RUNS = 3


def build(crate, words):
    """Proves and builds a program of this repository, and gives its file. The words are those of one short run."""
    folder = TOP / "crates" / crate
    subprocess.run(["rt", "run", "--", *words], cwd=folder, check=True, stdout=subprocess.DEVNULL)
    return folder / "out" / crate


class Measure:
    """The seconds that a run took, those of the processor, and the most memory that it had, in bytes."""

    def __init__(self, seconds, processor, memory):
        self.seconds, self.processor, self.memory = seconds, processor, memory

    def __str__(self):
        return f"{self.seconds:.2f} s, {self.processor:.2f} s of the processor, {self.memory / 1e6:.0f} MB of memory"


def measure(output, words):
    """Runs a program once, and prints its status, its seconds, those of the processor, and the most memory that it had, in bytes."""
    with open(output, "wb") as out:
        start = time.perf_counter()
        child = subprocess.Popen(words, stdin=subprocess.DEVNULL, stdout=out)
        _, status, usage = os.wait4(child.pid, 0)
        seconds = time.perf_counter() - start
    child.returncode = os.waitstatus_to_exitcode(status)
    print(child.returncode, seconds, usage.ru_utime + usage.ru_stime, usage.ru_maxrss * 1024)


def run(words, folder, output=os.devnull, wanted=0):
    """Runs a program once, which has to end with the status that is wanted, from a small process of its own: the system counts what the
    process that starts a program has as memory of that program too, and a script may hold more than the program that it measures. What
    that small process has, 14 MB, isn't told apart."""
    words = [str(word) for word in words]
    small = subprocess.run([sys.executable, __file__, str(output), *words], cwd=folder, stdout=subprocess.PIPE, text=True, check=True)
    status, seconds, processor, memory = small.stdout.split()
    if int(status) != wanted:
        sys.exit(f"{words[0]} ended with status {status}")
    return Measure(float(seconds), float(processor), int(memory))


def best(words, folder=TOP, output=os.devnull):
    """The best times and the most memory of some runs."""
    runs = [run(words, folder, output) for _ in range(RUNS)]
    return Measure(min(r.seconds for r in runs), min(r.processor for r in runs), max(r.memory for r in runs))


def peer(name):
    """Whether a program to compare with is installed; where it isn't, that is said."""
    found = shutil.which(name) is not None
    if not found:
        print(f"{name}: not installed, so not compared")
    return found


if __name__ == "__main__":
    measure(sys.argv[1], sys.argv[2:])
