#!/usr/bin/env python3
"""Prints what the public calls of crates promise: extra/promises.py [CRATE..]

It prints, for each crate that is named or for all, what the crate says of itself, and for each public call its file and line, its `///`, and the
definitions that its contract cites, each with its file. The contract is what is proved; the `///` says the same in words.
"""
import re
import signal
import sys
from dataclasses import dataclass
from pathlib import Path

CRATES = Path(__file__).resolve().parents[1] / "crates"
USED = re.compile(r"^ghost use Rattle\.(\w+)\.specs\.([\w.]+)\.\{(.*?)\};", re.M | re.S)
EXPORTED = re.compile(r"^pub use ([^;]+);", re.M)
OWNER = re.compile(r"(?:pub )?(?:impl|trait)\b")
CALL = re.compile(r"\s*(pub )?(?:const )?fn (\w+)")


@dataclass
class Call:
    """A public call: the type or trait that it belongs to, or nothing, its name, the line it is on, its `///`, and its contract."""

    owner: str
    name: str
    line: int
    said: list
    contract: str


def exported_by(text):
    """The names that the root of a crate makes public."""
    found = set()
    for used in EXPORTED.findall(re.sub(r"//.*", "", text)):
        names = re.search(r"\{(.*)\}", used, re.S)
        for name in (names.group(1) if names else used.rsplit("::", 1)[-1]).split(","):
            found.add(name.split(" as ")[-1].strip())
    return found


def owner_of(line):
    """What the calls of a block belong to: the type of `impl TYPE`, or the trait; nothing for an `impl TRAIT for TYPE`, whose promises are the
    trait's."""
    head = line.split(" where ")[0].replace("->", "")
    while re.search(r"<[^<>]*>", head):
        head = re.sub(r"<[^<>]*>", "", head)
    return "" if " for " in head else re.search(r"(?:impl|trait)\s+(\w+)", head).group(1)


def contract_after(lines, at):
    """The lines of a call from its name up to its body."""
    found = []
    for line in lines[at:]:
        if line.strip() in ("{", "{}") or line.endswith(" {") and "ensures" not in line and "requires" not in line:
            break
        found.append(line)
        if line.rstrip().endswith(";"):
            break
    return "\n".join(found)


def calls_in(text, exported):
    """The public calls of a file."""
    owner, is_trait, said = None, False, []
    lines = text.split("\n")
    for at, line in enumerate(lines):
        if OWNER.match(line):
            owner, is_trait = owner_of(line), "impl" not in line
        elif line == "}":
            owner, is_trait = None, False
        call = CALL.match(line)
        if line.lstrip().startswith("///"):
            said.append(line.strip().removeprefix("///").strip())
        elif call and (call.group(1) or is_trait) and (call.group(2) if owner is None else owner) in exported:
            yield Call(owner or "", call.group(2), at + 1, said, contract_after(lines, at))
        if call or line.strip() == "}":
            said = []


def cited(contract, text):
    """The definitions that a contract cites, by their files."""
    words = set(re.findall(r"\w+", contract.partition("ensures")[2]))
    for crate, path, names in USED.findall(text):
        found = [f"`{it}`" for it in re.split(r"[,\s]+", names) if it in words]
        if found and crate != "std" and not path.startswith("declared"):
            yield f"{', '.join(found)} of {crate}/specs/{path.replace('.', '/')}.antt"


def show(crate):
    """Prints what the calls of a crate promise."""
    root = (CRATES / crate / "src" / "lib.rt").read_text()
    exported = exported_by(root)
    print(f"# {crate}\n")
    print("\n".join(line.removeprefix("//!").strip() for line in root.split("\n") if line.startswith("//!")), end="\n\n")
    for file in sorted((CRATES / crate / "src").rglob("*.rt")):
        text = file.read_text()
        for call in calls_in(text, exported):
            name = f"{call.owner}::{call.name}" if call.owner else call.name
            print(f"## `{name}`, crates/{file.relative_to(CRATES)}:{call.line}\n")
            print("\n".join(call.said), end="\n\n")
            definitions = "; ".join(cited(call.contract, text))
            if definitions:
                print(f"By {definitions}.\n")


def main():
    signal.signal(signal.SIGPIPE, signal.SIG_DFL)  # a reader such as `less` may end before the page does
    known = sorted(it.parents[1].name for it in CRATES.glob("*/src/lib.rt"))
    unknown = [it for it in sys.argv[1:] if it not in known]
    if unknown:
        sys.exit(f"extra/promises.py: there is no library {unknown[0]} in crates/")
    for crate in sys.argv[1:] or known:
        show(crate)


if __name__ == "__main__":
    main()
