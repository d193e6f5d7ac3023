#!/usr/bin/env python3
"""Checks one crate at once, over the libraries below it as the gate makes them: by their statements.

    bench/check.py NAME [FLAGS..]       `rt check` of the crate NAME with these flags (--only F, --allow-holes, --test, ..)
    bench/check.py --below NAME         makes the libraries below it alone, for `rt plant`
    bench/check.py --program NAME       proves the program NAME and builds crates/NAME/out/NAME
    bench/check.py --tests NAME [WORD]  proves and builds the tests of NAME, and runs those whose names have WORD in them
    bench/check.py --in FOLDER ..       the same in a copy of the repository, or of some of its crates
    bench/check.py --names NAME..       prints these crates and all below them, in the order of crates.txt

What `rt ci` has proved on this machine is taken over, by the checksums of all that it read; a library that it
has not is proved here from nothing, and kept for it. So a crate is checked beside a run of the gate without
proving again what stands below. It is no verdict: only `rt ci` is.
"""
import fcntl
import hashlib
import importlib.machinery
import importlib.util
import os
import shutil
import sys
import tempfile


def load():
    """The command rt as a module."""
    path = os.path.realpath(shutil.which("rt"))
    sys.path.insert(0, os.path.dirname(path))
    loader = importlib.machinery.SourceFileLoader("rt", path)
    module = importlib.util.module_from_spec(importlib.util.spec_from_loader("rt", loader))
    loader.exec_module(module)
    return module


def library(rt, kept, crate):
    """Gives the crate its library, taken over or proved, unless it has it."""
    key, mark = kept.key(crate), f"{crate.folder}/out/rlib/given"
    if rt.rtlib.text_of(mark) == key and os.path.isdir(crate.rlib):
        kept.is_built(crate)
        return
    with kept.in_turn(crate, False, key):
        # (what another command of rt built here, with all its proofs, is another library)
        shutil.rmtree(f"{crate.folder}/out/rlib", ignore_errors=True)
        is_given = kept.give(crate, False, key)
        if not is_given:
            print(f"{crate.name}: proved from nothing", flush=True)
            os.makedirs(f"{crate.folder}/out", exist_ok=True)
            if crate.ci(["--jobs", "1"], False):
                sys.exit(f"{crate.name} is not proved")
        kept.is_built(crate)
        if not is_given:
            kept.keep(crate, False, key)
    with open(mark, "w", encoding="utf8") as file:
        file.write(key)


def built(rt, crate):
    """Proves a program and builds it, by LLVM."""
    rtlib, made = rt.rtlib, f"out/{crate.name}"
    words = ["--target", "x86_64-unknown-linux-gnu", "--toolchain", f"{rtlib.KIT}/toolchain", "-o", made, f"{made}.o"]
    words += [f"{rtlib.KIT}/c/libos_c.a", f"{rtlib.KIT}/c/liblibc_c.a"]
    return crate.compile(["--jobs", "1"], f"{made}.o") or crate.call(f"{rtlib.KIT}/bin/rattle-link", *words)


def parsed(words):
    """The folder, what is to be done, the crate and the flags that the words ask for."""
    top, what = os.path.dirname(os.path.dirname(os.path.abspath(__file__))), "check"
    if words[:1] == ["--in"] and len(words) > 1:
        top, words = os.path.abspath(words[1]), words[2:]
    if words[:1] in (["--below"], ["--program"], ["--tests"]):
        what, words = words[0][2:], words[1:]
    if not words or words[0].startswith("-"):
        sys.exit(__doc__)
    return top, what, words[0], words[1:]


def names(wanted):
    """Some crates and all below them, in the order of crates.txt."""
    below = {}
    with open(f"{os.path.dirname(os.path.dirname(os.path.abspath(__file__)))}/crates.txt") as file:
        for line in file:
            head, colon, deps = line.partition(":")
            if colon and not line.startswith("#"):
                below[head.split()[0]] = deps.split()
    found = set()
    left = list(wanted)
    while left:
        name = left.pop()
        if name in below and name not in found:
            found.add(name)
            left += below[name]
    return [name for name in below if name in found]


def main(words):
    if words[:1] == ["--names"]:
        print("\n".join(names(words[1:])))
        return 0
    top, what, name, flags = parsed(words)
    os.chdir(top)
    rt = load()
    rt.Crate.cuts_libraries = True
    rt.rtlib.guarded()
    rt.Crate.allowed = rt.handles_of(top)
    found = [it for it in rt.crates_of(top) if it.name == name]
    if not found:
        sys.exit(f"crates.txt has no {name}")
    crate = found[0]
    kept = rt.Kept([*crate.below(), crate])
    # (what is kept for the gate is not this script's to remove)
    kept.drop = lambda path: None
    # Of two checks in one copy the second waits until the libraries of the first are there.
    with open(f"{tempfile.gettempdir()}/check-{hashlib.sha256(top.encode()).hexdigest()[:16]}", "w", encoding="utf8") as lock:
        fcntl.flock(lock, fcntl.LOCK_EX)
        for it in crate.below():
            library(rt, kept, it)
    os.chdir(crate.folder)
    if what == "check":
        return crate.check(flags)
    if what == "program":
        return built(rt, crate)
    return crate.run(["--jobs", "1"], flags, tests=True) if what == "tests" else 0


sys.exit(main(sys.argv[1:]))
