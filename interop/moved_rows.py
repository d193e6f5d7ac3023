#!/usr/bin/env python3
"""Whether tests that became rows of data lost nothing.

    interop/moved_rows.py

Beside each program of rows lies a list, interop/moved/NAME.txt: which test functions its rows stand for, as they
were at the revision that the first line of interop/moved/revision names, or at the one of the list's own line
`revision REVISION`. A line of a list is

    CRATE FILE TEST -> a line of the crate's stdin that begins with #
    CRATE FILE TEST stays in CRATE FILE: why
    literal TEXT: why it stands nowhere

Each test function of that revision has to stand in a list, or still be a test function of that name, or of the one that
interop/moved/renamed has for it, or be listed as one at a later revision. Each word of
four letters or more in quotes, each text of bytes and each list of bytes that the old sources of a listed crate hold
has to stand in the new rows, as text or in hexadecimal, or in a test that stays. It ends with 0 where nothing is
missing.
"""
import os
import re
import subprocess
import sys

TOP = os.path.dirname(os.path.dirname(os.path.abspath(__file__)))


def git(*words):
    return subprocess.run(["git", *words], cwd=TOP, stdout=subprocess.PIPE, check=True).stdout.decode()


def unescaped(text):
    """What a Rust literal means, as bytes."""
    out, at = bytearray(), 0
    simple = {"n": 10, "r": 13, "t": 9, "0": 0, "\\": 92, '"': 34, "'": 39}
    while at < len(text):
        if text[at] != "\\":
            out += text[at].encode()
            at += 1
        elif text[at + 1] == "x":
            out.append(int(text[at + 2:at + 4], 16))
            at += 4
        elif text[at + 1] == "\n":
            at += 2
            while at < len(text) and text[at] in " \n":
                at += 1
        elif text[at + 1] == "u":
            end = text.index("}", at)
            out += chr(int(text[at + 3:end], 16)).encode()
            at = end + 1
        else:
            out.append(simple[text[at + 1]])
            at += 2
    return bytes(out)


def literals(source):
    """The texts and the lists of bytes in a source, without its comments."""
    source = re.sub(r"(?m)^\s*//.*$", "", source)
    # what a test says where it can't be run is no value
    source = re.sub(r'(Fail::from|ok_or|expect)\("[^"]*"\)', "", source)
    found = [unescaped(it) for it in re.findall(r'"((?:[^"\\]|\\.)*)"', source, re.S)]
    for inner in re.findall(r"\[([0-9a-fx,\s]+)\]", source):
        numbers = [word.strip() for word in inner.split(",") if word.strip()]
        if len(numbers) > 3 and all(re.fullmatch(r"0x[0-9a-f]{2}|[0-9]{1,3}", it) and int(it, 0) < 256 for it in numbers):
            found.append(bytes(int(it, 0) for it in numbers))
    return found


def piece(word, names):
    """The bytes of a word of a script, or None where it is none."""
    word, _, times = word.partition("*")
    cut = re.fullmatch(r"(\$\w+)\[\.\.(\d+)\]", word)
    if cut:
        word = cut[1]
    if word.startswith("$"):
        out = names.get(word[1:])
    elif word.startswith('"') and word.endswith('"') and len(word) > 1:
        out = unescaped(word[1:-1])
    elif word in names:
        out = names[word]
    elif word == "-":
        out = b""
    elif re.fullmatch(r"([0-9a-f]{2})+", word):
        out = bytes.fromhex(word)
    else:
        out = None
    if out is None or (times and not times.isdigit()):
        return None
    return (out[:int(cut[2])] if cut else out) * int(times or 1)


def spelled_out(script):
    """The bytes that the lines of a script name piece by piece, in hexadecimal digits."""
    names, found = {}, []
    for line in script.splitlines():
        words = re.findall(r'"(?:[^"\\]|\\.)*"(?:\*\d+)?|\S+', line)
        if words[:1] == ["text"] and len(words) > 2:
            names[words[1]] = unescaped(line.split(" ", 2)[2])
            found.append(names[words[1]].hex())
            continue
        for part in " ".join(words).split(" | "):
            part = re.findall(r'"(?:[^"\\]|\\.)*"(?:\*\d+)?|\S+', part)
            for start in range(min(6, len(part))):
                pieces = [piece(word, names) for word in part[start:]]
                if None not in pieces and sum(map(len, pieces)) < 1 << 20:
                    found.append(b"".join(pieces).hex())
        if words[:1] == ["let"]:
            pieces = [piece(word, names) for word in words[2:]]
            if None not in pieces and sum(map(len, pieces)) < 1 << 20:
                names.setdefault(words[1], b"".join(pieces))
    for line in script.splitlines():
        if line.startswith("= ") and "\\" in line:
            found.append(unescaped(line.split(" ", 2)[2]).hex())
    return "\n".join(found)


def tests(source):
    return re.findall(r"#\[test\]\s*fn (\w+)", source)


def stands(text, now):
    return text in now or text.replace("\r", "\\r").replace("\n", "\\n") in now


def is_told(it, now, squeezed):
    """Whether a literal stands in the rows: as text, as bytes, or as numbers."""
    text = it.decode(errors="replace")
    # (the parts of a pattern stand around what it is filled with)
    parts = re.split(r"\{[^{}]*\}", text) if text.isascii() else [text]
    return (it.hex() in squeezed or all(stands(part, now) for part in parts) or text.replace(" ", "") in squeezed
            or " ".join(map(str, it)) in now)


def missing_of(revision, known, still, renamed, wanted, excused, now, squeezed):
    """How many tests and literals of a revision stand nowhere."""
    missing = 0
    for path in git("ls-tree", "-r", "--name-only", revision, "crates").split("\n"):
        if not re.fullmatch(r"crates/ots\w*_(tests|crashes|runs)/src/.*\.rt", path):
            continue
        crate = path.split("/")[1]
        source = git("show", f"{revision}:{path}")
        for test in tests(source):
            if (revision, crate, test) not in known and renamed.get(test, test) not in still:
                print(f"{path}: the test {test} stands nowhere")
                missing += 1
        for it in literals(source) if crate in wanted else []:
            text = it.decode(errors="replace")
            if len(it) >= 4 and text not in excused and it.hex() not in excused and not is_told(it, now, squeezed):
                print(f"{path}: stands nowhere: {text if text.isprintable() else it.hex()}")
                missing += 1
    return missing


def main():
    with open(f"{TOP}/interop/moved/revision") as file:
        revision = file.readline().strip()
    first = revision
    known, excused, wanted, missing = {}, set(), {}, 0
    for name in sorted(os.listdir(f"{TOP}/interop/moved")):
        if not name.endswith(".txt"):
            continue
        crate = name[:-4]
        with open(f"{TOP}/crates/{crate}/stdin") as file:
            heads = {line.rstrip("\n") for line in file if line.startswith("#")}
        revision = first
        with open(f"{TOP}/interop/moved/{name}") as file:
            for line in file:
                line = line.rstrip("\n")
                if line.startswith("revision "):
                    revision = line.split(" ")[1]
                    continue
                moved = re.fullmatch(r"(ots\w+) (\S+) (\w+) -> (#.*)", line)
                stays = re.fullmatch(r"(ots\w+) (\S+) (\w+) stays in (ots\w+) (\S+): .+", line)
                excuse = re.fullmatch(r"literal (.*): [^:]+", line)
                if moved:
                    known[revision, moved[1], moved[3]] = True
                    wanted.setdefault(revision, set()).add(moved[1])
                    if moved[4] not in heads:
                        print(f"{name}: no such line in stdin: {moved[4]}")
                        missing += 1
                elif stays:
                    known[revision, stays[1], stays[3]] = True
                    wanted.setdefault(revision, set()).add(stays[1])
                    with open(f"{TOP}/crates/{stays[4]}/src/{stays[5]}") as source:
                        if stays[3] not in tests(source.read()):
                            print(f"{name}: no such test: {line}")
                            missing += 1
                elif excuse:
                    excused.add(excuse[1])
                elif line and not line.startswith("#"):
                    print(f"{name}: not read: {line}")
                    missing += 1
    now = ""
    still = set()
    for path in git("ls-files", "crates").split("\n"):
        if re.fullmatch(r"crates/ots\w*_rows/(stdin|stdout)", path):
            with open(f"{TOP}/{path}") as file:
                text = file.read()
            now += text + spelled_out(text)
        if re.fullmatch(r"crates/ots\w*_tests/src/.*\.rt", path) and os.path.exists(f"{TOP}/{path}"):
            with open(f"{TOP}/{path}") as file:
                source = file.read()
            still |= set(tests(source))
            now += source + "".join(it.hex() + "\n" for it in literals(source))
    with open(f"{TOP}/interop/moved/renamed") as file:
        renamed = dict(line.strip().split(" -> ") for line in file)
    squeezed = now.replace(" ", "")
    still |= {test for revision, _, test in known if revision != first}
    for revision in {first, *wanted}:
        missing += missing_of(revision, known, still, renamed, wanted.get(revision, set()), excused, now, squeezed)
    print(f"{missing} missing")
    sys.exit(missing > 0)


main()
