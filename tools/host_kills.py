#!/usr/bin/env python3
"""Kills `host` at random moments while a client pushes numbers, and looks after each kill whether the journal has every commit that a PROOF told, in
order; then hosts it again from there. Usage: tools/host_kills.py PROGRAM [KILLS], PROGRAM being the built `lamauth`.

`tools/host_kills.py PROGRAM most` pushes as many numbers as a journal has room for, 4,095, and one more, which has to be refused.

`tools/host_kills.py PROGRAM full FOLDER` hosts a journal in a folder on a small file system instead, until this is full: then the status has to be 9,
and the journal has to have every commit that was told. It needs to have room for less than 4,095 commits, which take 94,275 bytes."""
import hashlib
import os
import random
import re
import socket
import struct
import subprocess
import sys
import tempfile
import threading
import time

HERE = '127.0.0.1'
TEXT = b'''state int;
init start(x: int): int = x;
update push(s: int, x: int): (int, int) = let n = rem(add(mul(s, 31), x), 1000003) in (n, n);
'''
COMMITS_AT_MOST = 3000


def after(pushed):
    """The state behind these pushes of 1, 2, 3 .."""
    state = 7
    for x in range(1, pushed + 1):
        state = (state * 31 + x) % 1000003
    return state


def message(body):
    return struct.pack('>I', len(body)) + body


class Client(threading.Thread):
    """Pushes numbers behind those that are pushed, and counts the proofs that come."""

    def __init__(self, port, pushed):
        super().__init__()
        self.port, self.pushed, self.told, self.fault = port, pushed, pushed, None

    def take(self, link):
        """The next reply's body, or None at the end."""
        head = self.whole(link, 4)
        return None if head is None else self.whole(link, struct.unpack('>I', head)[0])

    def whole(self, link, count):
        came = b''
        while len(came) < count:
            some = link.recv(count - len(came))
            if not some:
                return None
            came += some
        return came

    def run(self):
        try:
            with socket.create_connection((HERE, self.port), timeout=20) as link:
                self.push(link)
        except OSError:
            pass

    def push(self, link):
        state = struct.pack('>q', after(self.pushed))
        link.sendall(message(b'\x01' + struct.pack('>H', 1) + hashlib.sha256(TEXT).digest() + struct.pack('>H', 0) + state))
        reply = self.take(link)
        if reply is not None and reply[0] != 0x81:
            self.fault = f'greeted with {reply[:4].hex()}'
        while reply is not None and self.fault is None:
            x = self.told + 1
            call = b'\x02' + struct.pack('>HHQ', 1, 1, 100) + struct.pack('>q', x)
            link.sendall(message(call) + message(b'\x03\0\0' + struct.pack('>I', 1)))
            reply = self.take(link)
            if reply is not None:
                if reply[0] == 0x82:
                    self.told = x
                else:
                    self.fault = f'push {x}: {reply[:4].hex()}'


def run(*words):
    done = subprocess.run(words, capture_output=True, text=True, timeout=60)
    return done.returncode, done.stdout


def replayed(lamauth, folder, journal):
    """How many commits the journal has, and the last state."""
    image, state = os.path.join(folder, 'last.image'), os.path.join(folder, 'last.state')
    status, text = run(lamauth, 'replay', os.path.join(folder, 'p'), journal, image)
    found = re.fullmatch(r'versions (\d+) commits (\d+)\n', text)
    assert status == 0 and found and int(found[1]) == int(found[2]) + 1, (status, text)
    assert run(lamauth, 'shallow', os.path.join(folder, 'p'), image, state)[0] == 0
    with open(state, 'rb') as file:
        return int(found[2]), struct.unpack('>q', file.read())[0]


def killed(lamauth, folder, journal, pushed):
    """A host that is killed, and the client that it had."""
    with socket.create_server((HERE, 0)) as free:
        port = free.getsockname()[1]
    host = subprocess.Popen([lamauth, 'host', os.path.join(folder, 'p'), journal, str(port), '1', '1000'], stdout=subprocess.PIPE)
    line = host.stdout.readline()
    assert line == f'listening {port}\n'.encode(), line
    client = Client(port, pushed)
    client.start()
    time.sleep(random.uniform(0, 0.12))
    host.kill()
    host.communicate()
    client.join()
    assert client.fault is None, client.fault
    return client.told


def begun(folder, lamauth):
    """A folder with the program and the image of its first state."""
    with open(os.path.join(folder, 'p'), 'wb') as file:
        file.write(TEXT)
    assert run(lamauth, 'init', os.path.join(folder, 'p'), 'start', '7', '10', os.path.join(folder, 'first.image'))[0] == 0


def filled(lamauth, small):
    """Hosts a journal in the folder `small` until its file system is full."""
    with tempfile.TemporaryDirectory() as folder, socket.create_server((HERE, 0)) as free:
        begun(folder, lamauth)
        journal, port = os.path.join(small, 'journal'), free.getsockname()[1]
        assert run(lamauth, 'found', os.path.join(folder, 'p'), os.path.join(folder, 'first.image'), journal) == (0, '')
        free.close()
        host = subprocess.Popen([lamauth, 'host', os.path.join(folder, 'p'), journal, str(port), '2', '1000'], stdout=subprocess.PIPE)
        line = host.stdout.readline()
        client = Client(port, 0)
        client.start()
        client.join()
        if client.fault is not None:
            host.kill()
        assert client.fault is None, f'the disk was not full behind {client.told} commits: {client.fault}'
        rest, status = host.stdout.read(), host.wait(timeout=60)
        commits, state = replayed(lamauth, folder, journal)
        assert (line, rest, status) == (f'listening {port}\n'.encode(), b'', 9), (line, rest, status)
        assert commits in (client.told, client.told + 1) and state == after(commits), (client.told, commits)
        print(f'the disk was full behind {client.told} commits that were told; the journal has {commits}')


def most(lamauth):
    """Pushes until a push is refused since there are as many versions as there may be."""
    with tempfile.TemporaryDirectory() as folder, socket.create_server((HERE, 0)) as free:
        begun(folder, lamauth)
        journal, port = os.path.join(folder, 'journal'), free.getsockname()[1]
        assert run(lamauth, 'found', os.path.join(folder, 'p'), os.path.join(folder, 'first.image'), journal) == (0, '')
        free.close()
        pushed = 0
        for end in range(2):
            host = subprocess.Popen([lamauth, 'host', os.path.join(folder, 'p'), journal, str(port), '1', '1000'], stdout=subprocess.PIPE)
            host.stdout.readline()
            client = Client(port, pushed)
            client.start()
            client.join()
            text, status = host.communicate(timeout=60)[0], host.returncode
            assert client.fault == 'push 4096: 84000109' and client.told == 4095, (client.fault, client.told)
            assert (text, status) == (b'versions 4096 commits 4095\n', 0), (text, status)
            assert replayed(lamauth, folder, journal) == (4095, after(4095))
            pushed = client.told
        print('4095 commits are kept, and one more is refused, also where the journal is hosted again')


def main():
    lamauth = os.path.abspath(sys.argv[1])
    if sys.argv[2:3] == ['most']:
        return most(lamauth)
    if sys.argv[2:3] == ['full']:
        return filled(lamauth, sys.argv[3])
    kills = int(sys.argv[2]) if len(sys.argv) > 2 else 200
    more, all_told = 0, 0
    with tempfile.TemporaryDirectory() as folder:
        begun(folder, lamauth)
        journal, pushed = None, COMMITS_AT_MOST
        for k in range(kills):
            if pushed >= COMMITS_AT_MOST:
                journal, pushed = os.path.join(folder, f'journal{k}'), 0
                assert run(lamauth, 'found', os.path.join(folder, 'p'), os.path.join(folder, 'first.image'), journal) == (0, '')
            told = killed(lamauth, folder, journal, pushed)
            commits, state = replayed(lamauth, folder, journal)
            assert commits in (told, told + 1), f'kill {k}: {told} told, {commits} in the journal'
            assert state == after(commits), f'kill {k}: another state'
            more += commits - told
            all_told += told - pushed
            pushed = commits
    print(f'{kills} hosts were killed behind {all_told} commits that were told, and hosted again from what their journals had; none was lost, and {more} not told were kept')
    return None


main()
