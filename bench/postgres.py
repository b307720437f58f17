"""A PostgreSQL server for the length of a script, in a folder of its own. It takes no parallel workers, so that its time is that of one
process, as SQLite's is."""
import os, shutil, subprocess, tempfile
from pathlib import Path


def is_installed():
    return all(map(shutil.which, ["initdb", "pg_ctl", "postgres", "psql"]))


class Server:
    def __init__(self):
        self.folder = Path(tempfile.mkdtemp())
        shutil.chown(self.folder, "postgres")
        self.command(["initdb", "-D", self.folder / "base", "-A", "trust", "-U", "postgres"])
        options = f"-c listen_addresses='' -k {self.folder} -c fsync=off -c shared_buffers=512MB -c work_mem=512MB -c jit=off"
        options += " -c max_parallel_workers_per_gather=0 -c max_parallel_maintenance_workers=0"
        self.command(["pg_ctl", "-D", self.folder / "base", "-w", "-t", "600", "-o", options, "-l", self.folder / "log", "start"])

    def command(self, words):
        subprocess.run(words, user="postgres", group="postgres", extra_groups=[], cwd=self.folder, check=True, stdout=subprocess.DEVNULL)

    def script(self, text):
        """What a script prints, line by line."""
        words = ["psql", "-h", self.folder, "-U", "postgres", "-qAt"]
        return subprocess.run(words, input=text, capture_output=True, text=True).stdout.split("\n")

    def timed(self, text, bound=None):
        """The seconds of the processor that a script takes in the process that serves it, and the lines that it prints. What goes on for
        longer than the bound is stopped, and prints nothing."""
        stat = "SELECT pg_read_file('/proc/self/stat');"
        limit = f"SET statement_timeout = '{bound}s';\n" if bound else ""
        lines = [line for line in self.script(f"{limit}{stat}\n{text}\n{stat}\n") if line]
        ticks = [sum(map(int, line.rsplit(")", 1)[1].split()[11:13])) for line in (lines[0], lines[-1])]
        return (ticks[1] - ticks[0]) / os.sysconf("SC_CLK_TCK"), lines[1:-1]

    def stop(self):
        self.command(["pg_ctl", "-D", self.folder / "base", "-m", "immediate", "stop"])
        shutil.rmtree(self.folder)
