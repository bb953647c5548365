"""The built program, run with a clock and random words that are known before.

No run can hang: input and output are files, each run has a limit of time, and nothing is built here. (The script
`tailnetd` at the top proves and builds a program that is older than its sources, and waits for any other run on the
machine that proves the same.)
"""

import os
import shutil
import signal
import struct
import subprocess
from dataclasses import dataclass
from glob import glob

TOP = os.path.dirname(os.path.dirname(os.path.abspath(__file__)))
PROGRAM = f"{TOP}/crates/tailnetd/out/tailnetd"
SECONDS = 60


class Missing(Exception):
    """Something that a run needs isn't there."""


@dataclass
class Ran:
    """What a run left; its status is None if it didn't end in time."""

    status: int | None
    output: bytes
    errors: bytes


def program():
    """The built program, which is newer than its sources."""
    if not os.access(PROGRAM, os.X_OK):
        raise Missing("the program isn't built: `rt ci` builds it, or ./tailnetd")
    folders = [f"{TOP}/crates/*/{name}/**/*" for name in ("src", "specs", "proofs")]
    sources = [path for folder in folders for path in glob(folder, recursive=True) if path.endswith((".rt", ".antt"))]
    built = os.path.getmtime(PROGRAM)
    newer = [path for path in sources if os.path.getmtime(path) > built]
    if newer:
        raise Missing(f"the program is older than {os.path.relpath(min(newer), TOP)}: `rt ci` builds it, or ./tailnetd")
    return PROGRAM


def run_in_time(words, seconds, **streams):
    """The status of a command; none if it didn't end in time, and then it is ended with all that it started."""
    ran = subprocess.Popen(words, start_new_session=True, **streams)
    try:
        return ran.wait(seconds)
    except subprocess.TimeoutExpired:
        os.killpg(ran.pid, signal.SIGKILL)
        ran.wait()
        return None


class World:
    """A folder for the files of runs, and the library that gives the program its clock and its random words."""

    def __init__(self, folder, path=None):
        if shutil.which("cc") is None:
            raise Missing("there is no C compiler `cc`: the fixed clock and random words are a small library in C")
        self.folder, self.program = folder, path or program()
        self.library = f"{folder}/fixed_world.so"
        compiler = ["cc", "-O2", "-shared", "-fPIC", "-o", self.library, f"{TOP}/model/fixed_world.c"]
        made = subprocess.run(compiler, stdin=subprocess.DEVNULL, capture_output=True, timeout=SECONDS, check=False)
        if made.returncode != 0:
            raise Missing(f"`cc` doesn't compile model/fixed_world.c: {made.stderr.decode(errors='replace')}")

    def file(self, name, content):
        """Writes a file of the folder, and gives its path."""
        path = f"{self.folder}/{name}"
        with open(path, "wb") as file:
            file.write(content)
        return path

    def fresh_store(self):
        """The path of a database that isn't there yet."""
        path = f"{self.folder}/store.db"
        for name in glob(f"{path}*"):
            os.remove(name)
        return path

    def run(self, words, requests, moments, faults=b"", draws_repeat=False, workplace=None):
        """Runs the program with these words over these bytes. The clock's last answer is repeated; random words count up
        from 1, over the whole run or, if draws repeat, in each draw of four."""
        environment = {
            "LD_PRELOAD": self.library,
            "CLOCK_ANSWERS": self.file("clock", struct.pack(f"<{len(moments)}q", *moments)),
            "WORD_FAULTS": self.file("faults", faults),
            "WORD_COUNT": "4" if draws_repeat else "0",
        }
        paths = self.file("requests", requests), f"{self.folder}/output", f"{self.folder}/errors"
        with open(paths[0], "rb") as input, open(paths[1], "wb") as output, open(paths[2], "wb") as errors:
            words = [self.program, *words]
            status = run_in_time(words, SECONDS, stdin=input, stdout=output, stderr=errors, env=environment, cwd=workplace)
        with open(paths[1], "rb") as output, open(paths[2], "rb") as errors:
            return Ran(status, output.read(), errors.read())
