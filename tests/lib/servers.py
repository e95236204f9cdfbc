"""Servers over the hosts, their clients, and what both told, for the scripts that stop servers."""
import itertools
import os
import random
import signal
import socket
import subprocess
import threading
from contextlib import suppress

# How many keys the clients share.
KEYS = 20
# The server's logs, and the bytes of a segment and between checkpoints: small, so that a life has many.
SIZES = ["3", "1500", "6000"]


class Client:
    """A connection to the server. It tells the lines of mtrecover-torture, those of its updates before it sends them too."""

    def __init__(self, number, at, tell):
        self.number, self.tell, self.mine, self.is_right = number, tell, "-", True
        self.socket = socket.socket(socket.AF_UNIX)
        self.socket.connect(at)
        self.lines = self.socket.makefile("r")

    def ask(self, line):
        """Sends a request, and returns the words of the lines that answer it."""
        what, key, *value = line.split()
        if what in ("set", "del"):
            self.tell(f"put {key} ? {value[0] if value else '-'}\n")
        self.socket.sendall(f"{line}\n".encode())
        last = {"set": "ack", "del": "ack", "get": "has", "range": "end"}[what]
        answers = []
        while not answers or answers[-1][0] != last:
            line = self.lines.readline()
            if not line.endswith("\n"):
                raise ConnectionError
            answers.append(line.split())
            if answers[-1][0] in ("put", "ack"):
                self.tell(line)
        return answers

    def ask_any(self, number):
        """Asks for one thing at random, or checks a key that no other client sets."""
        key = f"key{random.randrange(KEYS)}"
        what = random.choice(["set", "set", "set", "del", "get", "range", "mine"])
        if what == "mine":
            self.mine = f"{self.number}.{number}"
            self.ask(f"set mine{self.number} {self.mine}")
            self.is_right = self.ask(f"get mine{self.number}") == [["has", f"mine{self.number}", self.mine]]
        elif what == "set":
            self.ask(f"set {key} {self.number}.{number}.{random.choice(['', 'x' * 100])}")
        else:
            self.ask({"del": f"del {key}", "get": f"get {key}", "range": f"range {key} 5"}[what])

    def run(self):
        """Asks until the server is gone, or answers wrongly."""
        with suppress(OSError):
            for number in itertools.count(random.randrange(10**9)):
                self.ask_any(number)
                if not self.is_right:
                    return


class Server:
    """A server that runs in a folder, and listens elsewhere. `words` are further arguments."""

    def __init__(self, program, folder, at, words, **env):
        self.at, self.folder = str(at), folder
        self.process = subprocess.Popen(
            [program, ".", self.at, *words], cwd=folder, env={**os.environ, **env}, stdout=subprocess.PIPE, stderr=subprocess.PIPE
        )

    def is_ready(self):
        return self.process.stdout.readline() == b"ready\n"

    def store(self):
        """Returns the values of all keys."""
        return {key: value for _, key, value in Client(0, self.at, None).ask("range 0 1000")[:-1]}

    def kill(self):
        self.process.send_signal(signal.SIGKILL)
        return self.end()

    def end(self):
        err = self.process.communicate(timeout=600)[1].decode()
        return self.process.returncode, err


def start_clients(number, at, tell):
    """Lets this many clients ask, each in a thread. Returns them and the threads."""
    clients = [Client(n, at, tell) for n in range(number)]
    threads = [threading.Thread(target=client.run) for client in clients]
    for thread in threads:
        thread.start()
    return clients, threads
