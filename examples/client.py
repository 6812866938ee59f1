#!/usr/bin/env python3
"""Asks the store of a folder one thing, by one run of `FOLDER pipe`, and prints the answer.

    client.py FOLDER start COMMAND CWD SESSION HOSTNAME    prints the id under which the command runs
    client.py FOLDER end ID NANOSECONDS STATUS             keeps that it ended
    client.py FOLDER search TEXT [LIMIT]                   prints the newest commands that have the text

The program is $KUVADENY_PROGRAM. Several shells may ask at one time: each waits for the folder's lock, since a log has one
program at a time. Nothing is printed where the store refuses, and the status is 1 then."""
import fcntl
import os
import pathlib
import subprocess
import sys
import time

sys.path.insert(0, str(pathlib.Path(__file__).resolve().parent))
from frames import end, frame, start, unpacked

REFUSALS = {1: 'a text is too long', 2: 'no command runs under that id', 4: 'the store is full', 5: 'no random bytes', 6: 'the id is taken', 7: 'the disk failed', 8: 'no memory', 9: 'no such request'}


def request(words):
    """The frame of what the words ask."""
    match words:
        case ['start', command, cwd, session, hostname]:
            return start(command, cwd, session, hostname)
        case ['end', identity, nanoseconds, status]:
            return end(identity, int(nanoseconds), int(status))
        case ['search', text, *limit]:
            return frame([4, 1, 0, '', text, 0, 0, int(*limit or ['20'])])
    sys.exit(__doc__)


def ask(folder, asked):
    """What the program answers to one frame, while no other one has the folder."""
    with open(pathlib.Path(folder) / 'lock', 'a') as lock:
        fcntl.flock(lock, fcntl.LOCK_EX)
        program = subprocess.Popen([os.environ['KUVADENY_PROGRAM'], folder, 'pipe'], stdin=subprocess.PIPE, stdout=subprocess.PIPE)
        program.stdin.write(asked)
        program.stdin.close()
        reply = program.stdout.read()
        if program.wait() != 0 or not reply:
            sys.exit(1)
    return unpacked(reply, 4)[0]


def tell(reply):
    number, _, *values = reply
    if number != 0:
        sys.exit(REFUSALS.get(number, f'refused by {number}'))
    if values and isinstance(values[0], str):
        print(values[0])
    for hit in values[0] if values and isinstance(values[0], list) else []:
        print(time.strftime('%Y-%m-%d %H:%M:%S', time.localtime(hit[1] // 10**9)), hit[3], hit[4], sep='\t')


if len(sys.argv) < 3:
    sys.exit(__doc__)
tell(ask(sys.argv[1], request(sys.argv[2:])))
