"""The table of definitions: each file of specs/ by the comment that it begins with, and the files of code whose contracts cite it."""
import collections
import pathlib
import re
import sys

import peers

CHECK, CRATES = "definitions", pathlib.Path("crates")
LISTED = [line.split(":")[0].split()[0] for line in open("crates.txt") if line.strip() and not line.startswith("#")]
IMPORT = re.compile(r"^ghost use Rattle\.(\w+)\.specs((?:\.\w+)+)\.\{", re.M)


def heading(path):
    """The comment at the beginning of a file, as one text."""
    said = []
    for line in path.read_text().splitlines():
        if not line.startswith("--"):
            break
        said.append(line[2:].strip())
    return " ".join(said)


def module(crate, path):
    """The name of a file's module, as an import has it, with a dot before each part."""
    return "".join(f".{part}" for part in path.relative_to(CRATES / crate / "specs").with_suffix("").parts)


def is_list(path):
    """Whether a file only lists others: Lib, and the one beside a folder."""
    return all(line.startswith("pub mod ") for line in path.read_text().splitlines() if line)


def citations():
    """For each module of specs/, the files of code that name it, but for tests."""
    found = collections.defaultdict(list)
    for crate in LISTED:
        for path in sorted((CRATES / crate / "src").rglob("*.rt")):
            if "test" not in path.name:
                for named in dict.fromkeys(IMPORT.findall(path.read_text())):
                    found[named].append(f"{crate}/{path.stem}")
    return found


words, cited, faults, count = sys.argv[1:], citations(), 0, 0
for crate in LISTED:
    for path in sorted((CRATES / crate / "specs").rglob("*.antt")):
        if is_list(path):
            continue
        count += 1
        said, by = heading(path), ", ".join(cited[crate, module(crate, path)]) or "other definitions"
        if not said.endswith("."):
            faults += 1
            peers.say(CHECK, f"{path} does not begin with what it states")
        line = f"{crate}/{module(crate, path)[1:].replace('.', '/')}: {said} Cited by {by}."
        if all(word in line for word in words):
            print(line)
peers.say(CHECK, "failed" if faults else f"{count} files of definitions, each with its first line")
sys.exit(1 if faults else 0)
