#!/usr/bin/env python3
"""Brings this repository's own names in specs/ and proofs/ to one spelling: words in snake case, types in upper camel case.

    python3 tools/respell.py [--list]     at the top of the repository, once, after the kit's port.py

A name is respelled where it is declared in some specs/ or proofs/ file of this repository with a dash in it (a definition, a lemma, a
record, a field, a constructor, a parameter of a module), and at all its uses in .antt files, in the ghost parts of .rt files, in must-fail
edits and between backticks in the documents. Names of goals, which the check makes, keep their spelling. The script stops where
two names would fall together. --list prints the names, and changes nothing.
"""
import os
import re
import sys

TOKEN = re.compile(r"[^\s(){}\[\];,.«»\"`⟨⟩⦃⦄λ⌜⌝@]+")
DASHED = re.compile(r"^[A-Za-z][A-Za-z0-9_'ℕℤ₀-₉]*(-[A-Za-z0-9_'ℕℤ₀-₉]+)+$")
# names that only a `let`, a λ or an `as` declares
LOCAL = ["Is-channel", "with-slots", "operation-of", "with-one", "set-bit", "has-a", "what-comes"]
# lemmas that would have the name of the function whose contract they prove
LEMMAS = ["done-exactly", "equals-zero", "fuel-settles", "last-in-first-out", "read-by-letter", "rules-exactly", "runs-agree", "spans-nest", "trees-cover"]
# definitions that have the name of a function of src/ too, as many others have
FUNCTIONS = ["apart_from_earlier", "first_no", "one_if", "run_entry"]
KEYWORDS = {"abbrev", "unfoldable", "pub", "record", "data", "mod", "module", "ghost", "mutual", "ruleset", "|"}


def files(ends):
    for folder, dirs, names in os.walk("crates"):
        dirs[:] = sorted(d for d in dirs if d != "out")
        for name in sorted(names):
            if name.endswith(ends):
                yield os.path.join(folder, name)


def read(path):
    with open(path, encoding="utf-8", newline="") as f:
        return f.read()


def bare(line):
    return re.sub(r"(^|\s)--(\s.*)?$", "", line)


def declared():
    """The dashed names that a line declares: words before its first ` : `, or the name of a record, a data type or a clause."""
    names = set()
    for path in files(".antt"):
        answers = os.path.basename(path) in ("Answers.antt", "Invariants.antt", "Proof.antt", "Choices.antt")
        goals = set()
        for line in read(path).split("\n"):
            line = bare(line)
            if re.match(r"\s*use\s", line):
                continue
            head, colon, rest = line.partition(" : ")
            words = head.split()
            while words and words[0] in KEYWORDS:
                words = words[1:]
            if colon and words and all(TOKEN.fullmatch(w) for w in words):
                if answers and re.search(r"\bgoal\.", rest):
                    goals.update(words)
                    continue
                names.update(w for w in words if DASHED.match(w))
            for group in re.findall(r"[({]([^(){}:]+) : ", line):
                names.update(w for w in group.split() if DASHED.match(w))
            m = re.match(r"\s*(?:pub )?(?:record|data) (\S+)", line)
            if m and DASHED.match(m[1]):
                names.add(m[1])
        names -= goals
    return names


def respelled(name):
    if name in LEMMAS:
        return name.replace("-", "_") + "_lem"
    if name[0].isupper():
        return "".join(p[0].upper() + p[1:] for p in name.split("-"))
    return name.replace("-", "_")


def turn(text, new):
    # what stands behind `c.` or `goal.` is a name that the check makes
    return TOKEN.sub(lambda m: m[0] if re.search(r"\b(c|goal)\.$", text[max(0, m.start() - 6) : m.start()]) else new.get(m[0], m[0]), text)


def turn_rust(text, new):
    """In a .rt file only «quoted» names and clauses can have a dash between two letters with no blank around it."""
    text = re.sub(r"«([^«»]*)»", lambda m: new.get(m[1], "«" + m[1] + "»"), text)
    out = []
    for line in text.split("\n"):
        code, slash, comment = line.partition("//")
        if '"' in code or "'-'" in code:
            out.append(line)
        else:
            out.append(turn(code, new) + slash + re.sub(r"`([^`]*)`", lambda m: "`" + turn(m[1], new) + "`", comment))
    return "\n".join(out)


def main():
    new = {n: respelled(n) for n in sorted(declared().union(LOCAL))}
    words = set()
    for path in files(".antt"):
        for line in read(path).split("\n"):
            words.update(TOKEN.findall(bare(line)))
    turned, clash = {}, []
    for old, name in sorted(new.items()):
        if name in turned or (name in words and name not in FUNCTIONS):
            clash.append((old, name, turned.get(name, "a name that stands already")))
        turned[name] = old
    for old, name, other in clash:
        print(f"falls together: {old} -> {name}, with {other}", file=sys.stderr)
    if "--list" in sys.argv:
        for old in sorted(new):
            print(old, new[old])
        return
    if clash:
        raise SystemExit(1)
    docs = ["README.md"] + sorted(os.path.join("docs", n) for n in os.listdir("docs") if n.endswith(".md"))
    for path in list(files(".antt")) + list(files(".rt")) + list(files(".edit")) + docs:
        text = read(path)
        if path.endswith(".antt"):
            out = turn(text, new)
        elif path.endswith(".md"):
            out = re.sub(r"`([^`\n]*)`", lambda m: "`" + turn(m[1], new) + "`", text)
        else:
            out = turn_rust(text, new)
        if out != text:
            with open(path, "w", encoding="utf-8", newline="") as f:
                f.write(out)


main()
