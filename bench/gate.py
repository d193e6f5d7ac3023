#!/usr/bin/env python3
"""What the gate takes, in processor seconds by crate and kind.

    bench/gate.py [WORDS..]      runs `rt ci WORDS..` here, as `bench/gate.py --anew`, and reads it
    bench/gate.py --watch PID    reads a run of `rt ci` that goes on, until it ends
    bench/gate.py --unit [REV]   proves ots_ops alone from nothing, as it is at REV (else as it is here),
                                 and prints the seconds of that one check

Each second the processor time of every process below the run is read from /proc. What ended between two
readings is lost; where the run was started here, the system counts it, and it is a line of its own. The
table of docs/GATE.md is printed beside, crate by crate. A library is proved once (`library`), a second time
before its must-fail edits are tried over that, and once more after them (`seed`); the edits of a crate are
summed (`edits`); a crate of tests is checked as an empty library (`library`) and then proved and built
(`tests`); a program is proved once and built by two compilers (`program`).
"""
import os
import re
import resource
import shutil
import subprocess
import sys
import tempfile
import time

TICKS = os.sysconf("SC_CLK_TCK")
KINDS = ["library", "seed", "edits", "tests", "program"]
# How many checks of ots_ops from nothing each group may take, as docs/GATE.md divides them.
BUDGET = {"library": 56, "edits": 44, "tests": 56, "program": 22}
TOP = os.path.dirname(os.path.dirname(os.path.abspath(__file__)))


def processes():
    """Each process: its parent, its start, and its processor seconds so far."""
    found = {}
    for name in os.listdir("/proc"):
        if name.isdigit():
            try:
                with open(f"/proc/{name}/stat") as file:
                    words = file.read().rpartition(")")[2].split()
            except OSError:
                continue
            found[int(name)] = int(words[1]), int(words[19]), (int(words[11]) + int(words[12])) / TICKS
    return found


def below(top, found):
    """The processes below one."""
    wanted = {top}
    while True:
        more = {pid for pid, (parent, _, _) in found.items() if parent in wanted} - wanted
        if not more:
            return wanted
        wanted |= more


def what(pid):
    """The crate and the kind of a process, with the number of its edit, or None where it is no check of a crate."""
    try:
        with open(f"/proc/{pid}/cmdline", "rb") as file:
            words = file.read().decode(errors="replace").split("\0")
        folder = os.readlink(f"/proc/{pid}/cwd")
    except OSError:
        return None
    if not words[0].endswith("/rattle") or "--crate-name" not in words:
        return None
    crate = words[words.index("--crate-name") + 1]
    if "/rt-edit-" in folder:
        kept = words[words.index("--incremental") + 1] if "--incremental" in words else ""
        number = kept.rpartition("/")[2]
        return (crate, "seed", None) if number == "seed" else (crate, "edits", number)
    if "--test" in words:
        return crate, "tests", None
    return crate, "program" if any(word.endswith("main.rt") for word in words) else "library", None


def read(top, running):
    """The seconds of each crate and kind below a process, while it runs, and those of all else below it."""
    seconds, known = {}, {}
    while running():
        found = processes()
        for pid in below(top, found):
            _, start, spent = found.get(pid, (0, 0, 0))
            key = pid, start
            # (a process is asked again until it has become what it was started for)
            if not known.get(key):
                known[key] = what(pid)
            seconds[key] = max(spent, seconds.get(key, 0))
        time.sleep(1)
    table, edits, other = {}, {}, 0
    for key, spent in seconds.items():
        if known.get(key):
            crate, kind, number = known[key]
            table.setdefault(crate, dict.fromkeys(KINDS, 0))[kind] += spent
            if kind == "edits":
                name = name_of(crate, number)
                edits[name] = edits.get(name, 0) + spent
        else:
            other += spent
    return table, edits, other


def name_of(crate, number):
    """An edit by its number among the edits of its crate, which rt takes in the order of their names."""
    folder = f"{TOP}/crates/{crate}/must-fail"
    names = sorted(it for it in os.listdir(folder) if it.endswith(".edit")) if os.path.isdir(folder) else []
    known = number.isdigit() and int(number) < len(names)
    return f"{crate} {names[int(number)] if known else 'from nothing'}"


def last_table():
    """The seconds of each crate in docs/GATE.md's table."""
    rows = {}
    with open(f"{TOP}/docs/GATE.md") as file:
        for line in file:
            cells = [cell.strip() for cell in line.strip().strip("|").split("|")]
            if re.fullmatch(r"`ots\w*`", cells[0]) and len(cells) == 5 + len(KINDS):
                rows[cells[0].strip("`")] = [int(cell or 0) for cell in cells[5:5 + len(KINDS)]]
    return rows


def lines_of(crate, part):
    """The lines of a crate's files in src, specs or proofs that git knows."""
    names = subprocess.run(["git", "ls-files", "-z", f"crates/{crate}/{part}"], cwd=TOP, stdout=subprocess.PIPE, text=True)
    count = 0
    for name in names.stdout.split("\0"):
        if name.endswith((".rt", ".antt")) and os.path.exists(f"{TOP}/{name}"):
            with open(f"{TOP}/{name}") as file:
                count += sum(1 for _ in file)
    return count


def rows_for_the_docs(table):
    """The rows of docs/GATE.md, in the order of crates.txt."""
    with open(f"{TOP}/crates.txt") as file:
        crates = [line.split(":")[0].split()[0] for line in file if ":" in line and not line.startswith("#")]
    for crate in crates:
        edits = f"{TOP}/crates/{crate}/must-fail"
        count = len([it for it in os.listdir(edits) if it.endswith(".edit")]) if os.path.isdir(edits) else 0
        sizes = [lines_of(crate, part) for part in ("src", "specs", "proofs")]
        spent = [f"{table[crate][kind]:.0f}" if crate in table else "" for kind in KINDS]
        print("| " + " | ".join([f"`{crate}`", *map(str, [*sizes, count]), *spent]) + " |")


def say(table, edits, other, total, clock):
    before = last_table()
    print(f"{'crate':24}" + "".join(f"{kind:>9}" for kind in KINDS) + f"{'all':>9}{'before':>9}")
    for crate, row in sorted(table.items(), key=lambda it: -sum(it[1].values())):
        old = f"{sum(before[crate]):9}" if crate in before else f"{'-':>9}"
        print(f"{crate:24}" + "".join(f"{row[kind]:9.0f}" for kind in KINDS) + f"{sum(row.values()):9.0f}" + old)
    sums = [sum(row[kind] for row in table.values()) for kind in KINDS]
    print(f"{'all':24}" + "".join(f"{it:9.0f}" for it in sums) + f"{sum(sums):9.0f}")
    print(f"all else below the run: {other:.0f}")
    for name, spent in sorted(edits.items(), key=lambda it: -it[1]):
        print(f"{spent:9.0f} {name}")
    groups(table)
    if total is not None:
        print(f"lost between two readings: {total - sum(sums) - other:.0f}")
        print(f"by the system's count: {total:.0f} seconds of processor time, {clock:.0f} by the clock")
    print()
    rows_for_the_docs(table)


def groups(table):
    """What each group takes, beside its budget, in checks of ots_ops of the same run."""
    spent = dict.fromkeys(BUDGET, 0)
    for crate, row in table.items():
        of_tests = crate.endswith("_tests")
        for kind in KINDS:
            group = "tests" if of_tests else "edits" if kind == "seed" else kind
            spent[group] += row[kind]
    unit = table.get("ots_ops", {}).get("library", 0)
    for group, seconds in spent.items():
        times = f"{seconds / unit:.0f} times ots_ops of {BUDGET[group]}" if unit else "ots_ops was not proved in this run"
        print(f"{group:9}{seconds:9.0f}  {times}")


def run(words, folder, quiet=False):
    began = time.time()
    used = resource.getrusage(resource.RUSAGE_CHILDREN)
    out = subprocess.DEVNULL if quiet else sys.stderr
    started = subprocess.Popen(["rt", "ci", *words], cwd=folder, stdin=subprocess.DEVNULL, stdout=out, stderr=out)
    table, edits, other = read(started.pid, lambda: started.poll() is None)
    now = resource.getrusage(resource.RUSAGE_CHILDREN)
    total = now.ru_utime + now.ru_stime - used.ru_utime - used.ru_stime
    return table, edits, other, total, time.time() - began, started.returncode


def unit(revision):
    """The seconds of one check from nothing of ots_ops."""
    below_ops = ["ots_base", "ots_varint", "ots_ripemd", "ots_ops"]
    with tempfile.TemporaryDirectory() as place:
        if revision:
            made = subprocess.run(["git", "archive", revision], cwd=TOP, stdout=subprocess.PIPE, check=True)
            subprocess.run(["tar", "-x", "-C", place], input=made.stdout, check=True)
        else:
            for name in ["crates", "crates.txt", "HANDLES"]:
                copy = shutil.copytree if name == "crates" else shutil.copy
                copy(f"{TOP}/{name}", f"{place}/{name}")
        with open(f"{place}/crates.txt") as file:
            lines = [line for line in file if line.split(":")[0] in below_ops]
        with open(f"{place}/crates.txt", "w") as file:
            file.writelines(lines)
        for name in os.listdir(f"{place}/crates"):
            if name in below_ops:
                shutil.rmtree(f"{place}/crates/{name}/must-fail", ignore_errors=True)
            else:
                shutil.rmtree(f"{place}/crates/{name}")
        for name in os.listdir(place):
            if name not in ["crates", "crates.txt", "HANDLES"]:
                path = f"{place}/{name}"
                shutil.rmtree(path) if os.path.isdir(path) else os.remove(path)
        os.mkdir(f"{place}/.git")
        table, _, _, _, _, status = run(["--anew"], place, quiet=True)
    if status:
        sys.exit("ots_ops is not proved")
    print(f"one check from nothing of ots_ops: {sum(table['ots_ops'].values()):.0f} seconds")


def main():
    words = sys.argv[1:]
    if words[:1] == ["--unit"]:
        unit(words[1] if len(words) > 1 else None)
    elif words[:1] == ["--watch"]:
        top = int(words[1])
        table, edits, other = read(top, lambda: os.path.exists(f"/proc/{top}"))
        say(table, edits, other, None, None)
    else:
        table, edits, other, total, clock, status = run(words, os.getcwd())
        say(table, edits, other, total, clock)
        sys.exit(status)


if __name__ == "__main__":
    main()
