"""Packs a release of a program, and looks at what is in it: releases PROGRAM"""
import hashlib
import os
import subprocess
import sys
import tarfile
import tempfile
from pathlib import Path

ROOT = Path(__file__).resolve().parents[2]
WANTED = {
    "referee",
    "referee.1",
    "referee.bash",
    "_referee",
    "referee.fish",
    "python/referee/__init__.py",
    "python/pyproject.toml",
    "web/start.sh",
    "web/table/judge.py",
    "web/table/static/table.css",
    "web/table/templates/game.html",
    "README.md",
    "CHANGELOG.md",
    "PROOF-RUN.txt",
    "SHA256SUMS",
}


def packed(program, folder):
    """The archive of a program."""
    subprocess.run([ROOT / "extra" / "release.sh", folder, program], check=True, stdout=subprocess.DEVNULL)
    (archive,) = Path(folder).glob("*.tar.gz")
    return archive


def faults_of(program, folder):
    """What is not as it has to be."""
    archive = packed(program, Path(folder, "once"))
    again = packed(program, Path(folder, "twice"))
    if archive.read_bytes() != again.read_bytes():
        yield "the same files make two archives"
    version = subprocess.run([program, "-V"], capture_output=True, check=True, text=True).stdout.split()[1]
    name = f"referee-{version}"
    if archive.name != f"{name}.tar.gz":
        yield f"the name {archive.name}"
    package = f"referee_{version}_amd64"
    beside = [f"{name}.tar.gz", f"{package}.deb", f"{package}.debug"]
    if sorted(it.name for it in archive.parent.iterdir()) != sorted(["SHA256SUMS", *beside]):
        yield f"the files {sorted(it.name for it in archive.parent.iterdir())}"
    lines = [f"{hashlib.sha256((archive.parent / it).read_bytes()).hexdigest()}  {it}\n" for it in beside]
    if (archive.parent / "SHA256SUMS").read_text() != "".join(lines):
        yield "the sums of the files"
    with tarfile.open(archive) as tar:
        files = {it.name: tar.extractfile(it).read() for it in tar if it.isfile()}
        modes = {it.name: it.mode for it in tar}
    if not {f"{name}/{it}" for it in WANTED} <= set(files) or any(not it.startswith(f"{name}/") for it in files):
        yield f"the files {sorted(files)}"
    sums = dict(reversed(line.split("  ", 1)) for line in files[f"{name}/SHA256SUMS"].decode().splitlines())
    if sums != {it[len(name) + 1 :]: hashlib.sha256(data).hexdigest() for it, data in files.items() if not it.endswith("/SHA256SUMS")}:
        yield "SHA256SUMS"
    if files[f"{name}/referee"] != Path(program).read_bytes() or modes[f"{name}/referee"] != 0o755:
        yield "the program"
    certificate = files[f"{name}/PROOF-RUN.txt"].decode()
    for fact in (
        f"version     {version}",
        hashlib.sha256(Path(program).read_bytes()).hexdigest(),
        *(it.name for it in (ROOT / "crates").iterdir() if it.is_dir()),
    ):
        if fact not in certificate:
            yield f"PROOF-RUN.txt does not have {fact}"
    if next(line for line in files[f"{name}/CHANGELOG.md"].decode().splitlines() if line.startswith("## ")) != f"## {version}":
        yield f"CHANGELOG.md does not begin with {version}"
    if f'version = "{version}"' not in files[f"{name}/python/pyproject.toml"].decode().splitlines():
        yield f"python/pyproject.toml does not have the version {version}"
    if subprocess.run([ROOT / "extra" / "release.sh"], capture_output=True, check=False).returncode != 64:
        yield "a release without a folder"


def main():
    with tempfile.TemporaryDirectory() as folder:
        faults = list(faults_of(os.path.abspath(sys.argv[1]), folder))
    for fault in faults:
        print(fault)
    print(f"a release, {len(faults)} not as it has to be")
    sys.exit(bool(faults))


main()
