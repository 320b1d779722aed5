"""Peers of a built program's sessions: a client of `serve` and a server of `ask`, which only send bytes and keep what comes."""
import os
import socket
import subprocess

from random_calls import Result

HERE = "127.0.0.1"


def read_to_end(link):
    """All bytes that come on a link, also where it breaks off."""
    came = b""
    try:
        while some := link.recv(65_536):
            came += some
    except OSError:
        pass
    return came


class ServedClient:
    """Connects to `serve`, once it listens; sends all of its requests, and reads to the end."""

    def __init__(self, requests):
        self.requests = requests

    def __enter__(self):
        with socket.create_server((HERE, 0)) as free:
            self.port = free.getsockname()[1]
        return self

    def __exit__(self, *_):
        pass

    def talk(self, process):
        """The text that the process writes, and the bytes that it sends."""
        line = process.stdout.readline()
        came = b""
        if line.startswith(b"listening "):
            try:
                with socket.create_connection((HERE, self.port), timeout=60) as link:
                    link.sendall(self.requests)
                    link.shutdown(socket.SHUT_WR)
                    came = read_to_end(link)
            except OSError:
                pass
        return line + process.stdout.read(), came


class AskedServer:
    """Takes one connection of `ask`, sends all of its replies, and reads to the end."""

    def __init__(self, replies):
        self.replies = replies

    def __enter__(self):
        self.listener = socket.create_server((HERE, 0))
        self.listener.settimeout(0.02)
        self.port = self.listener.getsockname()[1]
        return self

    def __exit__(self, *_):
        self.listener.close()

    def talk(self, process):
        """The text that the process writes, and the bytes that it sends."""
        came = b""
        while True:
            try:
                link, _ = self.listener.accept()
                break
            except TimeoutError:
                if process.poll() is not None:
                    return process.stdout.read(), came
        with link:
            try:
                link.sendall(self.replies)
                came = read_to_end(link)
            except OSError:
                pass
        return process.stdout.read(), came


def run_talking(lamauth, folder, environment, words, peer):
    """What a command answers that speaks to a peer, `PORT` standing for the port, and what it sent."""
    out = os.path.join(folder, "o")
    if os.path.exists(out):
        os.remove(out)
    with peer:
        asked = [str(peer.port) if word == "PORT" else word for word in words]
        with subprocess.Popen([lamauth, *asked], cwd=folder, stdout=subprocess.PIPE, stderr=subprocess.STDOUT, env=environment,
                              close_fds=False) as process:
            text, came = peer.talk(process)
            status = process.wait(timeout=120)
        text = text.decode(errors="replace").replace(f"listening {peer.port}\n", "listening PORT\n")
    stored = None
    if os.path.exists(out):
        with open(out, "rb") as file:
            stored = file.read()
    return Result(status, text, stored), came
