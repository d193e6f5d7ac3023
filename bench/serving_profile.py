#!/usr/bin/env python3
"""What a request costs `otsd serve` and a plain threaded server of std that appends and syncs once a POST.

    bench/serving_profile.py OTSD [post|get] [FOLDER]

OTSD is the built program; files lie in FOLDER, /dev/shm where none is given. For POST, or for GET of a commitment that
is not stored, and for 1, 4, 16 and 64 clients with as many workers it prints, of each server and for one request: the
processor's microseconds, its own and the system's part; how often a thread gave the processor up or lost it; and, from
a second run under strace, how many system calls it made, by their names. These hardly depend on what else runs on the
machine. It needs rustc and strace.
"""
import os
import re
import signal
import subprocess
import sys
import tempfile
import time

TOP = os.path.dirname(os.path.abspath(__file__))
TICKS = os.sysconf("SC_CLK_TCK")
REQUESTS = 4000


def used(pid):
    """The processor seconds of a process, its own and the system's, and the switches of its threads."""
    with open(f"/proc/{pid}/stat") as file:
        words = file.read().rpartition(")")[2].split()
    switches = 0
    for thread in os.listdir(f"/proc/{pid}/task"):
        with open(f"/proc/{pid}/task/{thread}/status") as file:
            switches += sum(int(count) for count in re.findall(r"ctxt_switches:\t(\d+)", file.read()))
    return int(words[11]) / TICKS, int(words[12]) / TICKS, switches


def wait_for(path):
    for _ in range(600):
        if os.path.exists(path) and os.path.getsize(path):
            return
        time.sleep(0.1)
    sys.exit("the server did not begin")


def words_of(which, otsd, folder, port, clients):
    if which == "plain":
        return [f"{folder}/plain", f"{folder}/file-{port}", str(port), str(clients)]
    return [otsd, f"{folder}/journal-{port}", "serve", "--key", f"{folder}/key", "--uri", f"http://127.0.0.1:{port}",
            "--port", str(port), "--workers", str(clients)]


def load(folder, port, kind, clients, requests):
    words = [f"{folder}/load", str(port), kind, str(clients), str(requests)]
    subprocess.run(words, stdout=subprocess.DEVNULL, check=True)


def measured(which, otsd, folder, port, kind, clients):
    """Microseconds of the processor a request, its own and the system's, and switches."""
    out = f"{folder}/out-{port}"
    with open(out, "w") as file:
        server = subprocess.Popen(words_of(which, otsd, folder, port, clients), stdout=file)
    wait_for(out)
    load(folder, port, kind, clients, 4 * clients)
    before = used(server.pid)
    load(folder, port, kind, clients, REQUESTS)
    after = used(server.pid)
    server.kill()
    server.wait()
    count = REQUESTS // clients * clients
    own, system, switches = (now - then for now, then in zip(after, before))
    return own / count * 1e6, system / count * 1e6, switches / count


def calls(which, otsd, folder, port, kind, clients):
    """System calls a request, by name."""
    out, counted = f"{folder}/out-{port}", f"{folder}/calls-{port}"
    requests = 640
    with open(out, "w") as file:
        server = subprocess.Popen(["strace", "-f", "-c", "-o", counted, *words_of(which, otsd, folder, port, clients)], stdout=file)
    wait_for(out)
    load(folder, port, kind, clients, requests)
    traced = subprocess.run(["pgrep", "-P", str(server.pid)], stdout=subprocess.PIPE, text=True, check=True).stdout.split()
    for pid in traced:
        os.kill(int(pid), signal.SIGTERM)
    server.wait()
    found = {}
    with open(counted) as file:
        for line in file:
            row = re.match(r"\s*[\d.]+\s+[\d.]+\s+\d+\s+(\d+)\s+(?:\d+\s+)?(\w+)$", line)
            if row and row[2] != "total":
                found[row[2]] = int(row[1]) / requests
    return {name: count for name, count in sorted(found.items(), key=lambda it: -it[1]) if count >= 0.05}


def main():
    otsd = os.path.abspath(sys.argv[1])
    kind = sys.argv[2] if len(sys.argv) > 2 else "post"
    with tempfile.TemporaryDirectory(dir=sys.argv[3] if len(sys.argv) > 3 else "/dev/shm") as folder:
        for name in ["plain", "load"]:
            subprocess.run(["rustc", "-O", "-o", f"{folder}/{name}", f"{TOP}/serving/{name}.rs"], check=True)
        with open(f"{folder}/key", "wb") as file:
            file.write(b"k" * 32)
        port = 25788
        for clients in (1, 4, 16, 64):
            for which in ("otsd", "plain"):
                own, system, switches = measured(which, otsd, folder, port, kind, clients)
                by_name = calls(which, otsd, folder, port + 1, kind, clients)
                port += 2
                print(f"{kind}, {clients} clients, {which}: {own:.0f} us own, {system:.0f} us system, {switches:.1f} switches, "
                      f"{sum(by_name.values()):.1f} calls: " + ", ".join(f"{name} {count:.1f}" for name, count in by_name.items()),
                      flush=True)


if __name__ == "__main__":
    main()
