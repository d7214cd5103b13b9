#!/usr/bin/env python3
"""Brings the repository's own definitions and lemmas to today's spelling: words in snake case, a dash only between two names.

usage: tools/respell.py [ROOT]     run once, right after port.py, in a tree that port.py has turned

A name that specs/ or a lemma file of proofs/ declares is respelled where it is declared and wherever it is used: in every .antt file, in the
clauses and `ghost use` lines of every .rt file, in the edits. In comments and pages it is respelled between backticks (a name in mixed case: anywhere).
Functions of src/, their generated goals, strings and file names keep their spelling. It refuses to write where two names would fall together.
"""
import os
import re
import sys

DECLARED = re.compile(r"^\s*(?:(?:abbrev|unfoldable|pub|data|record|ruleset)\s+)*([^\s(){}:.,;λ]+)(?:\s*\{ℓ\})?\s*(?:\(.*\)|\{.*\})?\s*:\s")
USED = re.compile(r"^\s*(?:pub\s+)?use\s+([\w.·'+-]+)\.\{(.*)\}")
WORD = re.compile(r"[^\s(){}\[\].,;:λ→×`\"|@/]+")
NAMED = {"covers": "Covers", "head-of": "area_head", "on-entry": "on_entry_lem"}  # a type; two whose plain spelling is another's


def files(root, *ends):
    for folder, dirs, names in os.walk(root):
        dirs[:] = sorted(d for d in dirs if d not in ("out", ".git", "target", "build"))
        for name in sorted(names):
            if name.endswith(ends):
                yield os.path.join(folder, name)


def lines(path):
    with open(path, encoding="utf-8") as f:
        return f.read().split("\n")


def snake(word):
    if word[:1].islower() and re.search(r"[a-z0-9][A-Z]", word):
        return re.sub(r"(?<=[a-z0-9])(?=[A-Z])", "_", word).lower()
    return word


def table(root):
    """Old name to new, of every declared name that changes; and every name that is declared or imported."""
    specs, lemmas, known = set(), set(), set()
    for path in files(os.path.join(root, "crates"), ".antt"):
        in_specs = "/specs/" in path
        by_function = path.endswith("/Proof.antt")
        for line in lines(path):
            m = DECLARED.match(line)
            if m and not line.lstrip().startswith("--"):
                (specs if in_specs else set() if by_function else lemmas).add(m.group(1))
            m = USED.match(line)
            if m and not m.group(1).startswith("Rattle.") or m and m.group(1).startswith("Rattle.std"):
                known |= {n.split(" as ")[0].strip() for n in m.group(2).split(",")}
    words = {snake(n) for n in specs if "-" not in n} | {n for n in known if "-" not in n}
    to = {}
    for name in specs | lemmas:
        if name in known:
            continue
        parts = [snake(p) for p in name.replace("getD", "get_or").split("-")]
        new = parts[0]
        for left, right in zip(parts, parts[1:]):
            new += ("-" if left in words and right in words else "_") + right
        new = NAMED.get(name, new)
        if new != name:
            to[name] = new
    meet = {}
    for old, new in to.items():
        meet.setdefault(new, []).append(old)
    for new, olds in sorted(meet.items()):
        lemmas_of = [o for o in olds if "-" in o] if len(olds) > 1 else [new] if new in lemmas and new not in specs else []
        for lemma in lemmas_of:  # a definition and its lemma: as in std, the lemma gets `_lem`
            to[lemma] = new + "_lem"
    seen = {}
    for name in specs | lemmas | known:
        seen.setdefault(to.get(name, name), []).append(name)
    for new, olds in sorted(seen.items()):
        if len(olds) > 1:
            sys.exit(f"respell: {', '.join(sorted(olds))} fall together in {new}; nothing was written")
    return to, specs | lemmas


def in_ticks(text, change):
    return re.sub(r"`[^`]*`", lambda m: change(m.group(0)), text)


def respelled(path, text, to, declared):
    def one(m):
        new = to.get(m.group(0), m.group(0))
        field = m.start() > 0 and m.string[m.start() - 1] == "."  # a step of a function's proof may have a lemma's old name
        return m.group(0) if field and new.endswith("_lem") else new

    def every(t):
        path = re.match(r"\s*(pub |ghost )*use [\w.·'+-]+", t)  # modules are named by crates, files and functions
        start = path.end() if path else 0
        return t[:start] + WORD.sub(one, t[start:])

    def mixed(t):
        return WORD.sub(lambda m: to.get(m.group(0), m.group(0)) if re.search(r"[a-z0-9][A-Z]", m.group(0)) else m.group(0), t)

    def prose(t):
        return in_ticks(mixed(t), every)

    now = set(to.values()) | declared
    out, clause, parens = [], False, 0
    kind = None
    for line in text.split("\n"):
        if path.endswith(".antt"):
            m = re.match(r"(.*?)((?:^|\s)--\s.*|--)?$", line)
            code, said = m.group(1), m.group(2) or ""
            head = re.match(r"\s*--\s{3,}(.*?)(\s{2,}==.*|$)", line)
            out.append(every(line) if head else every(code) + prose(said))
        elif path.endswith(".rt"):
            said = line.lstrip().startswith("//")
            if not said and re.match(r"\s*(pub )?ghost |\s*(requires|ensures)\b", line):
                clause = True
            if clause and not said:
                out.append(every(line))
                if line.rstrip().endswith(("}", ";")) and line.count("{") == line.count("}"):
                    clause = False
                parens += line.count("{") - line.count("}")
                if parens <= 0:
                    clause, parens = False, 0
            else:
                out.append(prose(line))
        elif path.endswith(".edit"):
            if line.startswith("file:"):
                kind = line
            code = line.startswith(("old:", "new:")) and (kind or "").endswith(".antt")
            out.append(every(line) if code else mixed(line) if line.startswith(("old:", "new:")) else prose(line))
        else:
            out.append(in_ticks(prose(line), lambda t: WORD.sub(lambda m: snake(m.group(0)) if snake(m.group(0)) in now else m.group(0), t)))
    return "\n".join(out)


def main(argv):
    root = argv[0] if argv else os.path.join(os.path.dirname(os.path.abspath(__file__)), "..")
    to, declared = table(root)
    changed = 0
    places = list(files(os.path.join(root, "crates"), ".antt", ".rt", ".edit")) + [os.path.join(root, "README.md")] + list(files(os.path.join(root, "docs"), ".md"))
    for path in places:
        if os.path.basename(path).startswith("PORT"):
            continue
        with open(path, encoding="utf-8") as f:
            text = f.read()
        new = respelled(path, text, to, declared)
        if new != text:
            with open(path, "w", encoding="utf-8") as f:
                f.write(new)
            changed += 1
    print(f"respell: {len(to)} names, {changed} files")


if __name__ == "__main__":
    main(sys.argv[1:])
