"""The front before the server: it is built, looked over and tested, and its clients talk to the built server."""

import os
import shutil
import subprocess

from transcripts import TOP

BUILD = f"{TOP}/front/build"
OWN = ["tailnetd-front", *(f"tailnetd-front/internal/{name}" for name in ("tailclient", "office", "clients", "bench"))]


class Absent(Exception):
    """What a check can't run without, on a machine where it may be missing."""


def run(words, seconds, **more):
    """Runs a command, and says what is wrong with it; nothing if it ends well."""
    try:
        ran = subprocess.run(words, stdin=subprocess.DEVNULL, capture_output=True, text=True, timeout=seconds, cwd=TOP, check=False, **more)
    except subprocess.TimeoutExpired:
        return [f"{' '.join(words)}: doesn't end within {seconds} seconds"]
    told = (ran.stdout + ran.stderr).strip().split("\n")
    return [f"{' '.join(words)}: ends with {ran.returncode}", *told[-40:]] if ran.returncode else []


def missing():
    return subprocess.run([BUILD, "missing"], stdin=subprocess.DEVNULL, capture_output=True, text=True, timeout=60, check=True).stdout.split()


def have_go():
    """Installs Go and its packages where root may, and raises Absent where they are missing all the same."""
    names = missing()
    if not names:
        return
    if os.geteuid() == 0 and shutil.which("apt-get"):
        environment = {**os.environ, "DEBIAN_FRONTEND": "noninteractive"}
        run(["apt-get", "update"], 300, env=environment)
        faults = run(["apt-get", "install", "-y", "--no-install-recommends", *names], 600, env=environment)
        if not faults and not missing():
            return
    raise Absent(f"these packages aren't installed, and can't be from here: {' '.join(names)}")


def built():
    have_go()
    return run([BUILD], 300)


def front(_repository):
    """The front is built, and its own tests hold."""
    faults = built()
    if faults:
        return faults
    go = [BUILD, "run"]
    unformatted = subprocess.run([*go, "gofmt", "-l", f"{TOP}/front"], stdin=subprocess.DEVNULL, capture_output=True, text=True, timeout=60, check=False).stdout.split()
    faults = [f"{os.path.relpath(path, TOP)}: isn't as gofmt writes it" for path in unformatted if "/out/" not in path]
    # (the race detector needs a C compiler, and Go looks for gcc)
    race = ["-race"] if shutil.which("gcc") else []
    return faults + run([*go, "go", "vet", *OWN], 120) + run([*go, "go", "test", "-timeout", "200s", *race, *OWN], 300)


def front_clients(world, _repository):
    """Clients over Noise follow what the built server says, and fold it to what it answers a plain request."""
    environment = {**os.environ, "TAILNETD": world.program, "TAILNETD_FRONT": f"{TOP}/front/out/tailnetd-front"}
    return built() or run([BUILD, "run", "go", "test", "-count=1", "tailnetd-front/internal/clients"], 300, env=environment)
