"""Runs commands as they are typed at the top of the repository, in a folder of their own, so that what they write is left nowhere."""

import os
import subprocess
import sys
import tempfile
from typing import NamedTuple

from operators.asking import PROGRAM_VARIABLE

REPOSITORY = os.path.dirname(os.path.dirname(os.path.dirname(os.path.abspath(__file__))))
# What `./statesman` builds.
BUILT = os.path.join(REPOSITORY, "crates", "statesman_cli", "out", "statesman_cli")
LINKS = ("docs", "examples", "tools")


class Came(NamedTuple):
    status: int
    output: str
    errors: str


class Folder:
    """A folder with links to what stands at the top; its `./statesman` is the program that is tried, which the tools ask."""

    def __init__(self, program):
        self.made = tempfile.TemporaryDirectory(prefix="statesman-typed-")
        self.path = self.made.name
        for name in LINKS:
            os.symlink(os.path.join(REPOSITORY, name), os.path.join(self.path, name))
        os.symlink(os.path.abspath(program), os.path.join(self.path, "statesman"))
        # `python3` is the one that runs this.
        paths = os.path.dirname(sys.executable) + os.pathsep + os.environ.get("PATH", os.defpath)
        self.variables = {**os.environ, "PATH": paths, PROGRAM_VARIABLE: os.path.join(self.path, "statesman")}

    def __enter__(self):
        return self

    def __exit__(self, *_):
        self.made.cleanup()

    def write(self, name, data):
        with open(os.path.join(self.path, name), "wb") as file:
            file.write(data)

    def run(self, command):
        """What comes of a command of bash."""
        ended = subprocess.run(["bash", "-c", command], cwd=self.path, env=self.variables, stdin=subprocess.DEVNULL, capture_output=True, check=False)
        return Came(ended.returncode, ended.stdout.decode(errors="replace"), ended.stderr.decode(errors="replace"))


def add_program(parser):
    parser.add_argument("--program", metavar="FILE", default=BUILT, help="the program to try (the one that ./statesman builds)")


def is_there(program):
    """Whether there is a program to try; where there is none it is told how to come by one."""
    if os.access(program, os.X_OK):
        return True
    print("no program at %s: ./statesman check <examples/two_path.txt builds it" % program)
    return False
