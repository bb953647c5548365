"""The light check: documents, sources and the built program, in seconds.

usage: light.py [NAME..]   all checks, or those with these names; prints each fault, and exits with 1 if there is one

light.py --shorten takes out of the lists beside the checks what isn't needed there any more. It adds nothing.
"""

import subprocess
import sys
import tempfile
import time
from concurrent.futures import ThreadPoolExecutor

sys.dont_write_bytecode = True

import deployed
import documents
import fronts
import sources
import transcripts
from repository import Repository

TOP = transcripts.TOP

from program import Missing, World, run_in_time

CONVERSATIONS = 200
LISTS = {"shared-names": sources.shared_names, "catch-all-arms": sources.catch_all_arms, "wide-clauses": sources.wide_clauses}


def command_faults(words, seconds):
    """What a command of the repository says if it fails."""
    with tempfile.TemporaryFile() as output:
        status = run_in_time(words, seconds, cwd=TOP, stdin=subprocess.DEVNULL, stdout=output, stderr=output)
        output.seek(0)
        told = output.read().decode(errors="replace").strip().split("\n")
    if status is None:
        return [f"{words[0]} doesn't end within {seconds} seconds"]
    return [f"{words[0]} ends with {status}", *told[:20]] if status else []


def ends(world, repository):
    """What the program ends with."""
    return command_faults([f"{TOP}/.ci/ends"], 300)


def model(world, repository):
    """The program and the model answer alike."""
    return command_faults([f"{TOP}/model/compare", str(CONVERSATIONS)], 900)


def ctl(world, repository):
    """tailnetctl against the program, over loopback; the largest file of tests beside the others."""
    line = [sys.executable, "-B", "-m", "unittest", "discover", "-q", "-s", "ctl/tests", "-t", "ctl", "-p"]
    with ThreadPoolExecutor() as pool:
        runs = pool.map(lambda pattern: command_faults([*line, pattern], 300), ("test_can.py", "test_[!c]*.py"))
        return [fault for faults in runs for fault in faults]


READING = {
    "names": documents.names,
    "links": documents.links,
    "proofs": documents.proofs,
    "architecture": documents.architecture,
    "paths": documents.paths,
    "provenance": documents.provenance,
    "words": documents.words,
    "wrong-bodies": sources.wrong_bodies,
    **LISTS,
}
BUILDING = {"front": fronts.front}
RUNNING = {
    "ends": ends,
    "transcripts": transcripts.transcripts,
    "shell": deployed.shell_blocks,
    "units": deployed.units,
    "certificates": deployed.certificates,
    "release": deployed.release,
    "ctl": ctl,
    "front-clients": fronts.front_clients,
    "model": model,
}


def checked(name, check, *arguments):
    """Runs a check, prints its faults, and returns whether there is one. What can't run on this machine isn't one."""
    begun = time.monotonic()
    try:
        faults = check(*arguments)
    except fronts.Absent as absent:
        print(f"{name}: not run: {absent}", flush=True)
        return False
    seconds = time.monotonic() - begun
    print(f"{name}: {'ok' if not faults else f'{len(faults)} faults'} ({seconds:.1f} s)", flush=True)
    for fault in faults:
        print(f"  {fault}", flush=True)
    return bool(faults)


def run_checks(names):
    repository = Repository(TOP)
    alone = {**READING, **BUILDING}
    failed = [name for name in names if name in alone and checked(name, alone[name], repository)]
    running = [name for name in names if name in RUNNING]
    if not running:
        return failed
    with tempfile.TemporaryDirectory() as folder:
        try:
            world = World(folder)
        except Missing as missing:
            print(f"{' '.join(running)}: not run: {missing}")
            return failed + running
        return failed + [name for name in running if checked(name, RUNNING[name], world, repository)]


def shorten():
    """Takes out of the lists what isn't needed there any more."""
    repository = Repository(TOP)
    for name, check in LISTS.items():
        stale = {fault.rsplit(": take it out of", 1)[0] for fault in check(repository) if ": take it out of" in fault}
        path = f"{TOP}/.ci/lists/{name}"
        kept = [line for line in repository.read(f".ci/lists/{name}").split("\n") if line.strip() not in stale]
        with open(path, "w", encoding="utf-8") as file:
            file.write("\n".join(kept))


def main(words):
    if words == ["--shorten"]:
        return shorten()
    known = {**READING, **BUILDING, **RUNNING}
    unknown = [word for word in words if word not in known]
    if unknown:
        print(f"light: no check is called {' '.join(unknown)}; there are {' '.join(known)}", file=sys.stderr)
        return 2
    failed = run_checks(words or known)
    if failed:
        print(f"light: failed: {' '.join(failed)}", file=sys.stderr)
    return int(bool(failed))


if __name__ == "__main__":
    sys.exit(main(sys.argv[1:]))
