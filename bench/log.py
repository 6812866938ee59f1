"""Runs the proved log and what it is measured beside, and prints both with the proved log's part of the other."""
import os
import shutil
import subprocess
import sys
import time

APPENDS, ROUNDS, BYTES, SMALL = 2_000, 3, 920, 120


def run(*words):
    """The wall seconds of a run, and its most resident memory in bytes."""
    words = ["/usr/bin/time", "-f", "%M", *map(str, words)]
    began = time.perf_counter()
    done = subprocess.run(words, stdout=subprocess.DEVNULL, stderr=subprocess.PIPE, text=True)
    if done.returncode != 0:
        sys.exit(f"{words}: status {done.returncode}")
    return time.perf_counter() - began, int(done.stderr) * 1024


def without(path):
    """The path, at which there is no file now, nor one of SQLite's beside it."""
    for end in ("", "-wal", "-shm"):
        if os.path.exists(path + end):
            os.remove(path + end)
    return path


def appends(log, peer, path):
    best = {}
    for _ in range(ROUNDS):
        for name, words in {"the log": (log, "append"), "C": (peer, "append"), "SQLite": (peer, "sqlite")}.items():
            wall, _ = run(*words, without(path), APPENDS, BYTES)
            best[name] = min(best.get(name, wall), wall)
    for name, wall in best.items():
        print(f"appends of 1 KB  {name:8} {APPENDS / wall:8.0f} a second, the log's speed {wall / best['the log']:.2f} of it")


def opens(log, peer, path, count):
    fresh = without("/dev/shm/kuvadeny-bench-log")
    run(log, "append", fresh, count, SMALL)
    shutil.move(fresh, without(path))
    size = os.path.getsize(path)
    best, most = {}, {}
    for _ in range(ROUNDS):
        for name, words in {"the log": (log, "open"), "C": (peer, "hash")}.items():
            wall, memory = run(*words, path)
            best[name], most[name] = min(best.get(name, wall), wall), memory
    own = best["the log"]
    print(f"opening {count:8} records of {size / count:.0f} bytes: {size / own / 1e6:.0f} MB a second, {best['C'] / own:.2f} of C; "
          f"{own / count * 1e9:.0f} ns and {most['the log'] / count:.0f} resident bytes a record")
    return own / count


def main():
    log, peer, folder = (os.path.abspath(word) for word in sys.argv[1:])
    path = os.path.join(folder, "measured.log")
    appends(log, peer, path)
    few, many = (opens(log, peer, path, count) for count in (100_000, 1_000_000))
    print(f"a record costs {many / few:.2f} of what it costs in the smaller log")
    without(path)


main()
