"""What the scripts that try the repository's own texts share: the program that is tried, and how an answer differs from the one that is kept."""
import difflib
import os
import subprocess
import sys

TOP = os.path.dirname(os.path.dirname(os.path.realpath(__file__)))
LAUNCHER = os.path.join(TOP, "bin", "safedrive")
BUILT = os.path.join(TOP, "crates", "safedrive", "out", "safedrive")


def program_of(words):
    """The program that the words of a script name, or else the one that bin/safedrive builds."""
    program = os.path.abspath(words[0]) if words else BUILT
    if not os.access(program, os.X_OK):
        sys.exit(f"{program} is no program; `bin/safedrive check` of any driver builds {BUILT}")
    return program


def answer(program, words, folder):
    """What the launcher writes and its status, with the program that is tried."""
    told = subprocess.run([LAUNCHER, *words], cwd=folder, capture_output=True, env={**os.environ, "SAFEDRIVE_PROGRAM": program})
    return told.stdout.decode("latin-1"), told.stderr.decode("latin-1"), told.returncode


def scenario_of(driver):
    """The name of the scenario of a driver of examples/stopped: its own, or that of all."""
    own = driver.removesuffix(".c") + ".scenario.txt"
    return os.path.basename(own) if os.path.exists(own) else "scenario.txt"


def read(path):
    with open(path, encoding="latin-1") as file:
        return file.read()


def difference(kept, told):
    """The first lines of what differs, or nothing."""
    lines = difflib.unified_diff(kept.splitlines(), told.splitlines(), "kept", "told", lineterm="", n=1)
    return "\n".join(list(lines)[:20])


class Tally:
    """Counts what was tried, and tells what failed as it comes."""

    def __init__(self):
        self.passed, self.failed = 0, 0

    def note(self, name, wrong):
        """One thing was tried; `wrong` says what is wrong with it, or is empty."""
        if wrong:
            self.failed += 1
            print(f"{name}:\n{wrong}")
        else:
            self.passed += 1

    def end(self, of_what):
        print(f"{of_what}: {self.passed} passed, {self.failed} failed")
        sys.exit(1 if self.failed else 0)
