#!/usr/bin/env python3
"""Appends to journals on the disk of the machine by a process that ends after each device call of three appends, or is killed at any time,
and opens what is left by another process. Usage: tools/journal_kills.py PROGRAM [KILLS], PROGRAM as `rt run` builds crates/journal_trial."""
import os
import random
import re
import subprocess
import sys
import tempfile
import time


def lines(*words):
    run = subprocess.run(words, capture_output=True, text=True)
    return run.returncode, run.stdout.strip()


def opened(program, file):
    status, text = lines(program, 'open', file)
    found = re.fullmatch(r'versions (\d+) commits (\d+)', text)
    assert status == 0 and found, f'{file}: {status} {text}'
    versions, commits = int(found[1]), int(found[2])
    assert versions == commits + 1
    return commits


def stopped(program, file, calls):
    assert lines(program, 'make', file) == (0, '')
    status, text = lines(program, 'append', file, '1', '3', str(calls))
    assert status == 0, text
    told = int(text.removeprefix('told '))
    commits = opened(program, file)
    print(f'{calls} calls: told {told}, {commits} commits')
    assert told == calls // 4 and commits in (told, told + 1)


def killed(program, file):
    assert lines(program, 'make', file) == (0, '')
    run = subprocess.Popen([program, 'append', file, '1', '4000', '1000000'], stdout=subprocess.PIPE)
    time.sleep(random.uniform(0.01, 1))
    run.kill()
    run.communicate()
    return opened(program, file)


def main():
    program = os.path.abspath(sys.argv[1])
    kills = int(sys.argv[2]) if len(sys.argv) > 2 else 20
    with tempfile.TemporaryDirectory() as folder:
        for calls in range(13):
            stopped(program, os.path.join(folder, f'stopped{calls}'), calls)
        found = [killed(program, os.path.join(folder, f'killed{k}')) for k in range(kills)]
        print(f'{kills} processes were killed; their journals opened with {sorted(found)} commits')


main()
