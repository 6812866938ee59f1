"""Runs the three programs in turn, and prints turns a second and what waiting uses, with the first's part of each."""
import os
import sys
import time

TURNS, ROUNDS = 100_000, 7


def run(program, *words):
    """The wall seconds and the processor seconds of a run."""
    began = time.perf_counter()
    child = os.posix_spawn(program, [program, *map(str, words)], os.environ, file_actions=[(os.POSIX_SPAWN_OPEN, 1, os.devnull, os.O_WRONLY, 0)])
    _, status, usage = os.wait4(child, 0)
    if status != 0:
        sys.exit(f"{program} {words}: status {status}")
    return time.perf_counter() - began, usage.ru_utime + usage.ru_stime


def main():
    programs = dict(zip(("proved lock", "std's Mutex", "pthread_mutex"), map(os.path.abspath, sys.argv[1:])))
    for threads in (1, 4):
        best = dict.fromkeys(programs, 1e9)
        for _ in range(ROUNDS):
            for name, program in programs.items():
                best[name] = min(best[name], run(program, "turns", threads, TURNS // threads)[0])
        own = best["proved lock"]
        for name, wall in best.items():
            print(f"{threads} threads  {name:14} {TURNS / wall:9.0f} turns a second, the proved lock's speed {wall / own:.2f} of it")
    for name, program in programs.items():
        used = min(run(program, "held", 4)[1] for _ in range(3))
        print(f"3 threads wait a second for a turn  {name:14} {used:.4f} of a processor")


main()
