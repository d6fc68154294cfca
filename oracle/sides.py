"""The programs that answer cases: the port's, and the Rust crate's built twice. oracle/rust/driver.rs says how cases and answers are written."""
import os
import platform
import subprocess
import sys

HERE = os.path.dirname(os.path.abspath(__file__))
ROOT = os.path.dirname(HERE)
# as published programs are built, and with every overflow a trap
BUILDS = [("release", ["-C", "opt-level=3"]), ("checked", ["-C", "opt-level=1", "-C", "overflow-checks=on"])]


class Skipped(Exception):
    pass


class Broken(Exception):
    """A program did not answer every line of a batch."""


def rust(work, name, flags):
    """Builds the crate and the driver over it; answers the command. To see that a fault is found, TSZ_SOURCE may name a copy of the crate with one."""
    folder = os.path.join(work, name)
    built = subprocess.run(["sh", os.path.join(HERE, "rust", "build"), folder] + flags, stderr=subprocess.PIPE, text=True)
    if built.returncode == 77:
        raise Skipped(built.stderr.strip())
    if built.returncode:
        sys.exit("oracle: FAILED, the Rust crate was not built:\n" + built.stderr)
    driver, program = os.path.join(HERE, "rust", "driver.rs"), os.path.join(folder, "driver")
    words = ["rustc", "--edition", "2018", "-L", folder, "--extern", "tsz=" + os.path.join(folder, "libtsz.rlib"), "-o", program, driver]
    if subprocess.run(words + flags).returncode:
        sys.exit("oracle: FAILED, %s was not compiled" % driver)
    return [program]


def port(name):
    """Builds a program of the port, if it is not there or a source is newer; answers the command. Programs are for x86-64 Linux: where one does not
    start by itself, the kit's loader starts it."""
    built = subprocess.run([os.path.join(ROOT, "run"), "--build", name], stdout=subprocess.PIPE, stderr=subprocess.STDOUT, text=True)
    if built.returncode:
        sys.exit("oracle: FAILED, './run --build %s' ended with status %d:\n%s" % (name, built.returncode, built.stdout[-2000:]))
    program = os.path.join(ROOT, "crates", name, "out", name)
    if platform.machine() == "x86_64" and starts([program]):
        return [program]
    doc = subprocess.run(["rt", "doc"], stdout=subprocess.PIPE, text=True, check=True).stdout.strip()
    lib = os.path.join(os.path.dirname(doc), "toolchain", "lib")
    return [os.path.join(lib, "ld-linux-x86-64.so.2"), "--library-path", lib, program]


def starts(words):
    try:
        return subprocess.run(words, stdin=subprocess.DEVNULL, stdout=subprocess.DEVNULL, stderr=subprocess.DEVNULL).returncode == 0
    except OSError:
        return False


class Batch:
    """One start of each program on the same lines; they run while the next lines are made."""

    def __init__(self, work, number, commands, lines):
        self.lines = lines
        self.path = os.path.join(work, "batch%d" % number)
        with open(self.path, "w") as file:
            file.write("\n".join(lines) + "\n")
        self.running = []
        for place, words in enumerate(commands):
            with open(self.path) as given, open("%s.%d" % (self.path, place), "wb") as out:
                self.running.append(subprocess.Popen(words, stdin=given, stdout=out))

    def answers(self):
        """A list of lines for each program, in the order of the commands."""
        found = []
        for place, process in enumerate(self.running):
            process.wait()
            name = "%s.%d" % (self.path, place)
            with open(name) as out:
                text = out.read()
            os.remove(name)
            lines = text.split("\n")
            if process.returncode or lines[-1] or len(lines) != len(self.lines) + 1:
                self.drop()
                counts = (process.args, process.returncode, len(lines) - 1, len(self.lines))
                raise Broken("%s ended with status %d and %d lines for %d" % counts)
            found.append(lines[:-1])
        os.remove(self.path)
        return found

    def drop(self):
        """Ends the programs, whose answers are not wanted."""
        for process in self.running:
            process.kill()
            process.wait()
