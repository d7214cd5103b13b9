#!/usr/bin/env python3
"""What the other scripts ask of the kit.

kit.py home              the kit's folder
kit.py sum               a sum of all that a proof of the repository reads
kit.py passed            notes what `rt ci` left, right after it passed
kit.py words CRATE       the words by which rt has rattle check or build CRATE over the libraries below it, one a line
kit.py program CRATE     the file of a proved program

What is not of the files as they stand is proved and built first, by rt. Libraries and programs that `rt ci` left in crates/NAME/out are taken
where build/passed says that they are of these files; those of `rt check`, `rt lib` and `rt run` where rt's own stamp does.
"""
import functools
import hashlib
import importlib.machinery
import importlib.util
import os
import subprocess
import sys

ROOT = os.path.dirname(os.path.dirname(os.path.realpath(__file__)))
PASSED = f"{ROOT}/build/passed"


def loaded():
    """rt as a module: its crates know their libraries, their words and whether they are built."""
    sys.dont_write_bytecode = True
    home = os.path.dirname(subprocess.run(["rt", "doc"], stdout=subprocess.PIPE, text=True, check=True).stdout.strip())
    loader = importlib.machinery.SourceFileLoader("rt", f"{home}/bin/rt")
    module = importlib.util.module_from_spec(importlib.util.spec_from_loader("rt", loader))
    sys.modules["rt"] = module
    loader.exec_module(module)
    # (else asked anew for each way that leads to a library; no source changes while a script runs)
    module.rtlib.Crate.below = functools.lru_cache(maxsize=None)(module.rtlib.Crate.below)
    module.STAMPS.seen = {}
    return module


RT = loaded()
HOME = RT.KIT
RATTLE = f"{HOME}/bin/rattle"
CRATES = {crate.name: crate for crate in RT.rtlib.crates_below(ROOT)}


def sum_of(*files):
    found = hashlib.sha256()
    for file in files:
        with open(file, "rb") as it:
            found.update(repr((os.path.relpath(file, ROOT), it.read())).encode())
    return found.hexdigest()


def sources():
    """A sum of all that a proof of the repository reads."""
    files = [it for crate in CRATES.values() for it in RT.rtlib.files_of(crate.folder)]
    return sum_of(f"{ROOT}/crates.txt", *sorted(files), f"{HOME}/KIT-ID", f"{HOME}/WHAT")


def made(crate):
    """The file by which a crate's library or program is known: a library's has the sum of its others."""
    return f"{crate.folder}/out/{crate.name}" if crate.is_program else f"{crate.rlib}/format"


def note():
    rows = [f"{it.name} {sum_of(made(it))}" for it in CRATES.values() if os.path.isfile(made(it))]
    os.makedirs(os.path.dirname(PASSED), exist_ok=True)
    with open(PASSED, "w", encoding="utf-8") as it:
        it.write("\n".join([sources(), *rows, ""]))


def noted():
    """What `rt ci` left, by crate, if it passed on the files as they stand."""
    first, *rows = (RT.rtlib.text_of(PASSED) or "").splitlines() or [""]
    return dict(it.split() for it in rows) if first == sources() else {}


def quietly(words, folder, why):
    """Runs a command whose words are only of interest where it fails."""
    ran = subprocess.run(words, cwd=folder, stdin=subprocess.DEVNULL, stdout=subprocess.PIPE, stderr=subprocess.STDOUT, errors="replace")
    if ran.returncode:
        print("\n".join([*ran.stdout.splitlines()[-20:], why]), file=sys.stderr)
        sys.exit(1)


LEFT = noted()


def is_left(crate):
    return crate.name in LEFT and os.path.isfile(made(crate)) and sum_of(made(crate)) == LEFT[crate.name]


def is_stamped(crate):
    return os.path.isfile(f"{crate.folder}/out/rlib/stamp")


def words_of(crate, flags=("--jobs", "1")):
    """rattle's words for a crate, over its libraries: all as `rt ci` left them, or else all as rt's other commands make them."""
    below = crate.below()
    if any(is_stamped(it) or not is_left(it) for it in below):
        if sum(not it.is_built() for it in below) > 12:
            # (several at a time; what it says of other crates is not asked here)
            subprocess.run(["rt", "all", "check"], cwd=ROOT, stdin=subprocess.DEVNULL, stdout=subprocess.DEVNULL, stderr=subprocess.DEVNULL)
        for it in below:
            if not it.is_built():
                quietly(["rt", "lib"], it.folder, f"{it.name} is not proved")
    return crate.words([*flags], keeps=False)


def program(crate):
    """A program's file. rt builds one only to run it, so it is run on nothing, with the words of its file args."""
    stamp = RT.rtlib.text_of(f"{made(crate)}.stamp")
    is_ours = os.path.isfile(made(crate)) and stamp == crate.stamp() + RT.rtlib.sum_of(made(crate))
    if not is_ours and not is_left(crate):
        arguments = (RT.rtlib.text_of(f"{crate.folder}/args") or "").splitlines()
        quietly(["rt", "run", "--", *arguments], crate.folder, f"{crate.name} is not proved, or its short run failed")
    return made(crate)


def main(verb="", *rest):
    if verb == "home":
        print(HOME)
    elif verb == "sum":
        print(sources())
    elif verb == "passed":
        note()
    elif verb in ("words", "program") and len(rest) == 1 and rest[0] in CRATES:
        found = words_of(CRATES[rest[0]]) if verb == "words" else [program(CRATES[rest[0]])]
        print(*found, sep="\n")
    else:
        sys.exit(__doc__.strip())


if __name__ == "__main__":
    main(*sys.argv[1:])
