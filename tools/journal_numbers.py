#!/usr/bin/env python3
"""Seconds and memory of opening a journal of 4,094 commits on a search tree of 10,000 keys, and appends a second beside a program in C that
writes and syncs the same bytes. Usage: tools/journal_numbers.py PROGRAM LIBRARY, PROGRAM as `rt run` builds crates/journal_trial, LIBRARY the
text that `lamauth library bst` writes."""
import hashlib
import os
import random
import struct
import subprocess
import sys
import tempfile
import time

C = r'''
#include <fcntl.h>
#include <stdlib.h>
#include <string.h>
#include <unistd.h>
int main(int count, char **words) {
    int file = open(words[1], O_RDWR | O_CREAT, 0666);
    long appends = atol(words[2]), place = 88;
    unsigned char record[31] = {0, 2, 0, 0, 0, 0, 0, 0x0f, 0x42, 0x40, 0, 0, 0, 16}, gate = 1;
    for (long k = 0; k < appends; k++) {
        record[21] = record[29] = k;
        if (pwrite(file, record, 31, place + 1) != 31 || fdatasync(file)) return 1;
        if (pwrite(file, &gate, 1, place) != 1 || fdatasync(file)) return 1;
        place += 31;
    }
    return 0;
}
'''


def tree_image(own, keys):
    """The image of a balanced tree of these keys, each with itself as its value."""
    records = [b'\x05\0\0\0', b'\x06' + struct.pack('>I', 0)]

    def node(low, high):
        if low == high:
            return 1
        middle = (low + high) // 2
        left, right = node(low, middle), node(middle + 1, high)
        records.append(b'\x02' + struct.pack('>q', keys[middle]))
        key = len(records) - 1
        records.append(b'\x05\0\0\x01' + struct.pack('>4I', key, key, left, right))
        records.append(b'\x06' + struct.pack('>I', len(records) - 1))
        return len(records) - 1

    node(0, len(keys))
    return b'LAI1' + own + struct.pack('>I', len(records)) + b''.join(records)


def journal(own, image, keys):
    records = b''.join(b'\1' + struct.pack('>HQIqq', 2, 1000000, 16, key, key) for key in keys)
    return b'LAJ1' + own + struct.pack('>I', len(image)) + image + records + b'\0'


def timed(*words):
    start = time.monotonic()
    run = subprocess.run(['/usr/bin/time', '-f', '%M', *words], capture_output=True, text=True)
    return time.monotonic() - start, run.stdout.strip(), int(run.stderr.split()[-1])


def main():
    program, library = os.path.abspath(sys.argv[1]), sys.argv[2]
    own = hashlib.sha256(open(library, 'rb').read()).digest()
    random.seed(1)
    with tempfile.TemporaryDirectory(dir=os.path.expanduser('~')) as folder:
        image = tree_image(own, range(0, 20000, 2))
        for commits in (0, 4094):
            file = os.path.join(folder, f'tree{commits}')
            puts = random.sample(range(1, 20000, 2), commits)
            open(file, 'wb').write(journal(own, image, puts))
            seconds, text, peak = timed(program, 'open', file)
            print(f'{os.path.getsize(file)} bytes: {text}, {seconds:.2f} s, {peak} KiB')
        file = os.path.join(folder, 'appended')
        subprocess.run([program, 'make', file], check=True)
        empty, _, _ = timed(program, 'append', file, '1', '0', '0')
        seconds, text, peak = timed(program, 'append', file, '1', '2000', '1000000')
        print(f'{text}: {2000 / (seconds - empty):.0f} appends a second, {peak} KiB')
        source, plain = os.path.join(folder, 'plain.c'), os.path.join(folder, 'plain')
        open(source, 'w').write(C)
        subprocess.run(['cc', '-O2', '-o', plain, source], check=True)
        seconds, _, _ = timed(plain, os.path.join(folder, 'in_c'), '2000')
        print(f'in C: {2000 / seconds:.0f} appends a second')


main()
