"""How a link that `serve` ends looks to its peer: what came, and after how many seconds its end was seen.

    python3 tools/link_ends.py LAMAUTH
"""
import os
import socket
import subprocess
import sys
import tempfile
import time

from talking import HERE

PROGRAM = "state int; init make(x: int): int = x; query more(s: int, x: int): int = add(s, x);\n"
BAD = bytes([0, 0, 0, 1, 9])
WAYS = {
    "a message that is none": BAD,
    "a message that is none, 16,000,000 bytes behind it": BAD + bytes(16_000_000),
    "a message that is too long": bytes([255] * 4),
    "the peer's own end": None,
}


def seen(link, sent):
    """What comes in answer, and how it ends, within 20 seconds."""
    came = b""
    try:
        if sent is None:
            link.shutdown(socket.SHUT_WR)
        else:
            link.sendall(sent)
        while some := link.recv(65_536):
            came += some
        return came, "end"
    except OSError as error:
        return came, type(error).__name__


def main(lamauth):
    with tempfile.TemporaryDirectory() as folder:
        with open(os.path.join(folder, "a.lam"), "w") as text:
            text.write(PROGRAM)
        subprocess.run([lamauth, "init", "a.lam", "make", "0", "9", "a.image"], cwd=folder, check=True, stdout=subprocess.DEVNULL)
        for way, sent in WAYS.items():
            with socket.create_server((HERE, 0)) as free:
                port = free.getsockname()[1]
            words = [lamauth, "serve", "a.lam", "a.image", str(port), "2", "9", "last.image"]
            with subprocess.Popen(words, cwd=folder, stdout=subprocess.PIPE) as served:
                served.stdout.readline()
                with socket.create_connection((HERE, port), timeout=20) as link:
                    began = time.monotonic()
                    came, how = seen(link, sent)
                    print(f"{way}: {came.hex() or 'nothing'}, {how} after {time.monotonic() - began:.3f} s")
                served.kill()


if __name__ == "__main__":
    main(os.path.abspath(sys.argv[1]))
