"""What the tools that try wrong programs share: a room, in which one crate may be changed, and what the prover says of it there.

A room is a repository of its own, away from this one, with copies of a crate and of those below it. Two commands of the kit work in it:
`rt ci`, which proves the crate with nothing of earlier checks but what a whole run has passed, by the checksums of all that it reads, and
keeps what it passes in the same way; and `rt check`, which begins with what checks in any checkout on this machine have kept, and says
of each function whether it is proved.
"""
import importlib.machinery
import importlib.util
import os
import re
import resource
import shutil
import subprocess
import tempfile
import time
from contextlib import contextmanager
from pathlib import Path
from typing import NamedTuple

ROOT = Path(__file__).resolve().parent.parent
PARTS = "src specs proofs".split()


def tool(name):
    """Another tool of this folder, as a module: its name has no ending, which an import would ask for."""
    loader = importlib.machinery.SourceFileLoader(name, str(ROOT / "tools" / name))
    module = importlib.util.module_from_spec(importlib.util.spec_from_loader(name, loader))
    loader.exec_module(module)
    return module


calls = tool("calls")

# What an error says where a proof's text does not fit the code: a name that it cites is not there. That would befall a right program of
# that shape too. Any other error of a proof is a goal that is not reached.
SHAPE = re.compile(r"has no field|is not in scope|has no `|was not admitted")


def below(name, listed=None):
    """The crates of the repository that one stands on, and itself, lowest first."""
    listed = listed or dict(calls.crates())
    found = []
    for dep in listed[name]:
        if dep in listed:
            found += [crate for crate in below(dep, listed) if crate not in found]
    return [*found, name]


@contextmanager
def room(name):
    """A repository with copies of one crate and of those below it, and nothing else; gone when the work in it is done."""
    with tempfile.TemporaryDirectory(prefix="room-") as place:
        where, wanted = Path(place), below(name)
        lines = (ROOT / "crates.txt").read_text().splitlines()
        (where / "crates.txt").write_text("".join(line + "\n" for line in lines if (line.partition(":")[0].split() or [""])[0] in wanted))
        if (ROOT / "HANDLES").exists():
            shutil.copy(ROOT / "HANDLES", where)
        for crate in wanted:
            for part in PARTS:
                if (ROOT / "crates" / crate / part).exists():
                    shutil.copytree(ROOT / "crates" / crate / part, where / "crates" / crate / part)
        yield where


class Said(NamedTuple):
    """What the prover says of a crate: whether it is proved, the errors with the files that they stand in, what is said of each function,
    all that was printed, and the seconds of the clock."""

    proved: bool
    errors: list
    functions: dict
    printed: str
    seconds: float

    def of(self, call):
        """What is said of a function, by the prover's name, in a word: proved, refused at a fact or by shape, or unknown, where only a callee is refused. What
        `search` is to find alone has no text that might not fit: it is refused at a fact."""
        said = self.functions.get(call, "")
        if said == "proved":
            return "proved"
        if "it calls" in said:
            return "unknown"
        own = [text for path, text in self.errors if path.startswith(calls.proof_of(call))]
        return "shape" if not said or own and all(map(SHAPE.search, own)) else "fact"


def told(command, where, **more):
    """The status of a command of the kit, all that it printed, and the seconds of the clock."""
    began = time.monotonic()
    run = subprocess.run(command, cwd=where, stdin=subprocess.DEVNULL, stdout=subprocess.PIPE, stderr=subprocess.STDOUT, text=True, env={**os.environ, **more})
    return run.returncode, run.stdout, time.monotonic() - began


def check(name, where):
    """What `rt check` says of the crate NAME in a room."""
    status, printed, seconds = told(["rt", "check"], where / "crates" / name)
    errors = re.findall(r"^(?:\./)?(proofs/\S+?\.antt):[\d:]+ error: (.*(?:\n  .*)*)", printed, re.M)
    functions = dict(re.findall(rf"^fn {name}::([\w:]+): (.*)", printed, re.M))
    return Said(status == 0, errors, functions, printed, seconds)


def passes(name, where):
    """What `rt ci` says of a room, in which it proves the crate NAME by one job, with the crates below it."""
    laid, printed, _ = told(["rt", "fmt"], where / "crates" / name)
    if laid:
        return Said(False, [], {}, printed, 0)
    status, printed, seconds = told(["rt", "ci"], where, RT_JOBS="1")
    whole = re.search(r"^(\d+) passed, 0 failed\n\Z", printed, re.M)
    return Said(status == 0 and bool(whole), [], {}, printed, seconds)


def processor_seconds():
    """The seconds of processor time that the commands run so far have taken."""
    used = resource.getrusage(resource.RUSAGE_CHILDREN)
    return used.ru_utime + used.ru_stime
