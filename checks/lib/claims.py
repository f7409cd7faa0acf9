"""docs/CLAIMS.md against the repository. Under the heading of its crate a claim ends with `By FUNCTIONS, CLAUSES (DEFINITIONS); EDITS.`"""
import pathlib
import re
import sys

import peers

CHECK, CRATES = "claims", pathlib.Path("crates")
LISTED = [line.split(":")[0].split()[0] for line in open("crates.txt") if line.strip() and not line.startswith("#")]
WORD = re.compile(r"`([^`]+)`")
faults = []


def texts(crate, folder, ending):
    """The text of each file of a crate's folder, but for those of tests."""
    return [path.read_text() for path in sorted((CRATES / crate / folder).rglob(f"*{ending}")) if "test" not in path.name]


def contracts(crate, name):
    """The contract of each function of that name, of its type where one is named: what stands between the name and the body."""
    kind, _, function = name.rpartition("::")
    for text in texts(crate, "src", ".rt"):
        for block in re.split(r"(?m)^(?=(?:pub )?(?:impl|trait)\b)", text) if kind else [text]:
            if kind and not re.match(rf"(?:pub )?(?:impl|trait)\b[^{{]*\b{kind}\b", block):
                continue
            for found in re.finditer(rf"\bfn {function}\b", block):
                yield re.split(r"(?m)^\s*(?:\{|\}|fn |pub fn )", block[found.end():], maxsplit=1)[0]


def is_clause(contract, clause):
    if clause is None:
        return len(re.findall(r"\bensures\b", contract)) == 1
    return re.search(rf"\bensures {clause}\b\s*\{{", contract) is not None


def is_defined(word):
    """Whether some crate defines the word, in specs/ or as a type or one of its cases."""
    specified = rf"^\s*(?:(?:pub|abbrev|unfoldable|record|data|rec|ghost)\s+)*{word}\b(?=[^\n]*[:=])"
    declared = rf"^\s*(?:pub\s+)?(?:struct|enum|trait)?\s*{word}\b\s*[({{,]"
    head = re.compile(rf"(?m){specified}|{declared}")
    return any(head.search(text) for crate in LISTED for text in texts(crate, "specs", ".antt") + texts(crate, "src", ".rt"))


def is_edit(crate, edit):
    """Whether the edit stands there, and each of its old texts once in its file, as far as the edit has not made it."""
    path = CRATES / crate / "must-fail" / f"{edit}.edit"
    if not path.is_file():
        return False
    file, text = None, ""
    for line in path.read_text().splitlines():
        kind, _, rest = line.partition(": ")
        if kind == "file":
            file = CRATES / crate / rest.strip()
            if not file.is_file():
                return False
            text = file.read_text()
        elif kind == "old":
            old = rest
            if text.count(old) != 1:
                return False
        elif kind == "new":
            text = text.replace(old, rest)
    return True


def clauses_of(part):
    if "its one clause" in part:
        return [None]
    return WORD.findall(re.sub(r"\(.*\)", "", part))


def judge(crate, line):
    """One line `By ..`: its functions, clauses and definitions, and its edits, which are counted."""
    told, _, guards = line.partition("; ")
    parts = re.match(r"By (.*?), ((?:its one )?clauses?)(.*)", told)
    functions, kind, rest = parts.groups() if parts else (told, "", "")
    clauses, names = clauses_of(kind + rest), WORD.findall(functions)
    if not names or not clauses or not guards:
        faults.append(f"{crate}: not to be read: {line}")
    for name in names:
        found = list(contracts(crate, name))
        if not found:
            faults.append(f"{crate}: no function {name}")
        for clause in clauses:
            if found and not any(is_clause(contract, clause) for contract in found):
                faults.append(f"{crate}: {name} has no clause {clause or 'alone'}")
    for words in re.findall(r"\(([^)]*)\)", rest):
        faults.extend(f"{crate}: no definition {word}" for word in WORD.findall(words) if not is_defined(word))
    edits = WORD.findall(guards)
    if not edits and guards != "no edit.":
        faults.append(f"{crate}: no edit is named: {line}")
    faults.extend(f"{crate}: no edit {edit} that can be applied" for edit in edits if not is_edit(crate, edit))
    return len(edits)


crate, line, claims, edits = None, None, 0, 0
for number, text in enumerate(open("docs/CLAIMS.md"), 1):
    if text.startswith("## "):
        crate = text[3:].strip()
        if crate not in LISTED:
            faults.append(f"no crate {crate}")
    text = text.strip()
    line = f"{line} {text}" if line else text if text.startswith("By ") else None
    if line and line.endswith("."):
        before = len(faults)
        claims, edits, line = claims + 1, edits + judge(crate, line), None
        faults[before:] = [f"docs/CLAIMS.md:{number}: {fault}" for fault in faults[before:]]
for fault in faults:
    peers.say(CHECK, fault)
peers.say(CHECK, "failed" if faults else f"{claims} claims with {edits} edits, each as it stands")
sys.exit(1 if faults else 0)
