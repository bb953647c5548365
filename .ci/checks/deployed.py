"""Checks of what is installed: the units, the front's configuration, the release, and the shell blocks of the documents.

Each needs a tool that isn't on every machine. Where it isn't there the check says so, and has no fault.
"""

import os
import re
import shutil
import subprocess
import tempfile
from glob import glob

from transcripts import TOP, blocks_of

# `systemd-analyze security` counts from 0, nothing is exposed, to 10.
MOST_EXPOSED = 1.5
PAGES = ("README.md", "docs/OPERATING.md")
SECONDS = 300


def is_missing(check, *tools):
    """Whether a tool isn't there, which is said."""
    missing = [tool for tool in tools if shutil.which(tool) is None]
    if missing:
        print(f"{check}: not run: there is no {' and no '.join(missing)}", flush=True)
    return bool(missing)


def told(words, **settings):
    """The status of a command, and what it writes."""
    ran = subprocess.run(
        words, stdin=subprocess.DEVNULL, stdout=subprocess.PIPE, stderr=subprocess.STDOUT, text=True, errors="replace", timeout=SECONDS,
        check=False, **settings,
    )
    return ran.returncode, ran.stdout.strip()


def faults_of(words, **settings):
    """What a command of the repository says if it fails."""
    status, text = told(words, **settings)
    return [f"{' '.join(words[:2])} ends with {status}", *text.split("\n")[-20:]] if status else []


def units(world, repository):
    """The units are sound, and leave little open."""
    if is_missing("units", "systemd-analyze"):
        return []
    faults = []
    with tempfile.TemporaryDirectory() as folder:
        paths = sorted(glob(f"{TOP}/deploy/*.service") + glob(f"{TOP}/deploy/*.timer"))
        for path in paths:
            text = repository.read(os.path.relpath(path, TOP))
            # The programs aren't installed here, and whether they are isn't asked.
            with open(f"{folder}/{os.path.basename(path)}", "w", encoding="utf-8") as file:
                file.write(re.sub(r"(?m)^(Exec\w+=)/usr/local/\S+", r"\1/bin/true", text))
        status, text = told(["systemd-analyze", "verify", *sorted(glob(f"{folder}/*"))])
        faults += [f"systemd-analyze verify: {line}" for line in text.split("\n") if line] or ([f"systemd-analyze verify ends with {status}"] if status else [])
    for name in ("tailnetd.service", "tailnetd-front.service"):
        status, text = told(["systemd-analyze", "security", "--offline=true", f"{TOP}/deploy/{name}"])
        level = re.search(rf"exposure level for {re.escape(name)}: ([0-9.]+)", text)
        if not level or float(level.group(1)) > MOST_EXPOSED:
            faults.append(f"deploy/{name}: {level.group(0) if level else text[:200]}, and not at most {MOST_EXPOSED}")
    return faults


def certificates(world, repository):
    """nginx proves machines by their certificates."""
    if is_missing("certificates", "nginx", "openssl"):
        return []
    return faults_of([f"{TOP}/bench/certificates", world.program])


# What has to stand in the package, and what it has to do once it is unpacked.
PACKED = """
set -eu
export PATH=$PWD/usr/bin:$PATH HOME=$PWD
tailnetctl --version | grep -qx 'tailnetctl 0.1~trial'
policy-lint usr/share/tailnetd/examples/office.hujson
usr/share/tailnetd/examples/first-minutes > /dev/null
for page in usr/share/man/man8/tailnetd.8.gz usr/share/man/man1/tailnetctl.1.gz usr/share/man/man1/policy-lint.1.gz; do zcat "$page" > /dev/null; done
bash -n usr/share/bash-completion/completions/tailnetctl
if command -v zsh > /dev/null; then zsh -n usr/share/zsh/vendor-completions/_tailnetctl; fi
for script in ../control/postinst ../control/prerm ../control/postrm; do sh -n "$script"; done
if grep -rn /usr/local usr/lib/systemd usr/lib/tailnetd; then exit 1; fi
"""


def release(world, repository):
    """A package is made, is unpacked, and runs."""
    if is_missing("release", "dpkg-deb", "dpkg", "curl"):
        return []
    with tempfile.TemporaryDirectory() as folder:
        faults = faults_of([f"{TOP}/deploy/release", "0.1~trial", folder])
        packages = glob(f"{folder}/*.deb")
        if faults or len(packages) != 1:
            return faults or ["deploy/release makes no package"]
        return (
            faults_of(["sha256sum", "--check", *[os.path.basename(path) + ".sha256" for path in packages]], cwd=folder)
            or faults_of(["dpkg", "-x", packages[0], f"{folder}/root"])
            or faults_of(["dpkg-deb", "-e", packages[0], f"{folder}/control"])
            or faults_of(["bash", "-c", PACKED], cwd=f"{folder}/root")
        )


def shell_faults(world, page, number, block):
    """Why a block of a page fails as a script, in a folder that looks like a clone and keeps what the script writes."""
    with tempfile.TemporaryDirectory() as folder:
        os.symlink(world.program, f"{folder}/tailnetd")
        for name in ("ctl", "deploy", "examples", "model"):
            os.symlink(f"{TOP}/{name}", f"{folder}/{name}")
        environment = {"PATH": os.environ["PATH"], "HOME": folder}
        script = "\n".join(line for _, line in block)
        try:
            status, text = told(["sh", "-eu", "-c", script], cwd=folder, env=environment)
        except subprocess.TimeoutExpired:
            status, text = None, f"doesn't end within {SECONDS} seconds"
    return [f"{page}:{number}: the block ends with {status}: {text[-300:]}"] if status != 0 else []


def tools_of(block):
    """The tools of a block that aren't on every machine."""
    needed = {"openssl ": "openssl", "curl ": "curl", "examples/first-minutes": "curl"}
    return sorted({tool for text, tool in needed.items() if any(text in line for _, line in block)})


def shell_blocks(world, repository):
    """Each block of README and OPERATING that is marked `sh run` runs."""
    faults = []
    for page in PAGES:
        for word, block in blocks_of(repository.read(page)):
            if word == "sh run" and not is_missing("shell", *tools_of(block)):
                faults += shell_faults(world, page, block[0][0], block)
    return faults
