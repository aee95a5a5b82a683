"""What `run` and `check` share: the edits, and the checksum of a crate's contracts and definitions."""
import glob
import hashlib
import os
import re

TOP = os.path.dirname(os.path.dirname(os.path.dirname(os.path.abspath(__file__))))
HERE = os.path.join(TOP, "checks", "edits")
SUMS = os.path.join(HERE, "sums")
CLAUSE = re.compile(r"^ *(requires|ensures|ghost)\b")
COMMENT = re.compile(r"^ *--.*\n", re.M)


def in_gate():
    """Returns the edits that the gate tries, by crate."""
    return by_crate(os.path.join(TOP, "crates", "*", "must-fail", "*.edit"), 3)


def beside_gate():
    """Returns the edits that `run` tries, by crate."""
    return by_crate(os.path.join(HERE, "*", "*.edit"), 2)


def by_crate(pattern, above):
    found = {}
    for file in sorted(glob.glob(pattern)):
        found.setdefault(file.split(os.sep)[-above], []).append(file)
    return found


def misfit(file, crate):
    """Returns why an edit no longer applies to the crate, or None."""
    texts, path, old = {}, None, None
    with open(file, encoding="utf-8") as lines:
        for line in lines.read().splitlines():
            kind, _, text = line.partition(": ") if ": " in line else line.partition(":")
            if kind == "file":
                path = os.path.join(TOP, "crates", crate, text.strip())
                if not os.path.isfile(path):
                    return f"no file {text.strip()}"
                if path not in texts:
                    with open(path, encoding="utf-8") as source:
                        texts[path] = source.read()
            elif kind == "old":
                old = text
                count = texts[path].count(old)
                if count != 1:
                    return f"stands {count} times: {old}"
            elif kind == "new":
                texts[path] = texts[path].replace(old, text)
    return None if texts else "names no file"


def clauses(text):
    """Returns the clauses and ghost items of a source, each up to its closing brace."""
    found, lines, at = [], text.splitlines(), 0
    while at < len(lines):
        if CLAUSE.match(lines[at]):
            depth, begun = 0, False
            while at < len(lines):
                found.append(lines[at].strip())
                depth += lines[at].count("{") - lines[at].count("}")
                begun = begun or "{" in lines[at]
                if begun and depth <= 0 or not begun and lines[at].rstrip().endswith(";"):
                    break
                at += 1
        at += 1
    return "\n".join(found)


def promise(crate):
    """Returns the checksum of the definitions and clauses of a crate, without comments."""
    said = hashlib.sha256()
    folder = os.path.join(TOP, "crates", crate)
    for file in sorted(glob.glob(os.path.join(folder, "specs", "**", "*.antt"), recursive=True)):
        with open(file, encoding="utf-8") as text:
            said.update(COMMENT.sub("", text.read()).encode())
    for file in sorted(glob.glob(os.path.join(folder, "src", "**", "*.rt"), recursive=True)):
        with open(file, encoding="utf-8") as text:
            said.update(clauses(text.read()).encode())
    return said.hexdigest()[:32]


def sums():
    """Returns the checksum of each crate when its edits were last refused."""
    if not os.path.isfile(SUMS):
        return {}
    with open(SUMS, encoding="utf-8") as lines:
        return dict(line.split() for line in lines if line.strip() and not line.startswith("#"))


def write_sums(of):
    with open(SUMS, "w", encoding="utf-8") as out:
        out.write("# what each crate promised when its edits here were last refused (checks/edits/run writes it)\n")
        for crate in sorted(of):
            out.write(f"{crate} {of[crate]}\n")
