"""A running `pdpd serve` or `pdpd listen`, and a client that writes bytes to it: what tests and benchmarks share."""
import os
import re
import selectors
import socket
import struct
import subprocess
import sys
import threading

from sent import (  # noqa: F401
    ABSENT, BAD_HEAD, CREATED, DONE, EXISTS, HEAD_TOO_LARGE, OPERATOR, UNAUTHORIZED, UNAVAILABLE, decided, fault,
    making, message, policy, reply)

MOST_CONNECTIONS = 1_000_000
# The command that is tested.
COMMAND = "listen" if "--listen" in sys.argv[1:] else "serve"
PATIENCE = 30
# How often the program is started before another port isn't tried, and its exit status where it can't listen.
MOST_STARTS, STATUS_OF_SOCKET = 5, 5
PIECE = 100  # messages that are sent together
os.umask(0o077)  # a token file that others can read gets a line on standard error


def free_port():
    with socket.socket() as taken:
        taken.bind(("127.0.0.1", 0))
        return taken.getsockname()[1]


class Client:
    """One connection: bytes go out as they are given, and replies are read one at a time."""

    def __init__(self, port):
        self.socket = socket.create_connection(("127.0.0.1", port), timeout=PATIENCE)
        self.socket.setsockopt(socket.IPPROTO_TCP, socket.TCP_NODELAY, 1)
        self.held = b""

    def send(self, data):
        self.socket.sendall(data)

    def ends_writing(self):
        self.socket.shutdown(socket.SHUT_WR)

    def more(self):
        """Whether more bytes came before the end of the stream."""
        try:
            data = self.socket.recv(65_536)
        except ConnectionResetError:
            data = b""
        self.held += data
        return bool(data)

    def reply(self):
        """The next whole reply; what came of one, where the stream ends before."""
        while b"\r\n\r\n" not in self.held:
            if not self.more():
                return self.rest()
        head, _, _ = self.held.partition(b"\r\n\r\n")
        lengths = [line for line in head.split(b"\r\n") if line.lower().startswith(b"content-length:")]
        whole = len(head) + 4 + int(lengths[0].split(b":")[1])
        while len(self.held) < whole:
            if not self.more():
                return self.rest()
        found, self.held = self.held[:whole], self.held[whole:]
        return found

    def rest(self):
        found, self.held = self.held, b""
        return found

    def all(self):
        """All bytes up to the end of the stream."""
        while self.more():
            pass
        return self.rest()

    def is_silent(self, seconds):
        """Whether no byte comes for so long."""
        with selectors.DefaultSelector() as selector:
            selector.register(self.socket, selectors.EVENT_READ)
            return not self.held and not selector.select(seconds)

    def ask(self, data):
        self.send(data)
        return self.reply()

    def close(self, reset=False):
        if reset:
            self.socket.setsockopt(socket.SOL_SOCKET, socket.SO_LINGER, struct.pack("ii", 1, 0))
        self.socket.close()

    def __enter__(self):
        return self

    def __exit__(self, *what):
        self.close()


def processor_seconds_of(pid):
    """The processor seconds, user and system, of a process of one thread, to the nanosecond while it sleeps."""
    with open(f"/proc/{pid}/schedstat") as line:
        return int(line.read().split()[0]) / 1e9


class Served:
    """The program over a file, by `serve` for so many connections, by `listen` until its input ends. It is killed, if
    it still runs, at the end of the `with` statement."""

    def __init__(self, program, path, token_file, connections=MOST_CONNECTIONS, port=None, command=COMMAND,
                 changes=None, **more):
        """`changes`: where `listen` takes changes, if not at its port."""
        self.command, self.input = command, subprocess.DEVNULL
        self.before, self.behind = [program, command, path], [token_file, str(connections)]
        if command == "listen":
            self.behind, self.input = [token_file, *([changes] if changes else [])], subprocess.PIPE
            more["env"] = {**(more.get("env") or os.environ), "PDPD_END": "input"}
        self.start(port or free_port(), more)
        for _ in range(MOST_STARTS - 1):
            if port or not self.port_is_taken():
                break
            self.start(free_port(), more)

    def start(self, port, more):
        self.port, self.said = port, b""
        words = [*self.before, f"127.0.0.1:{port}", *self.behind]
        self.process = subprocess.Popen(words, stdin=self.input, stdout=subprocess.PIPE, stderr=subprocess.PIPE, **more)
        self.first_line = self.process.stdout.readline()
        self.listens = self.first_line == f"listening 127.0.0.1:{port}\n".encode()

    def port_is_taken(self):
        """Whether the program has ended since it can't listen: another process got the port that
        was free a moment ago."""
        return not self.first_line and self.process.wait(PATIENCE) == STATUS_OF_SOCKET

    def listened(self):
        """None where it listens; else what it said and its exit status."""
        return None if self.listens else self.ended()[1:]

    def client(self):
        return Client(self.port)

    def once(self, *messages):
        """The replies to messages on one connection of their own."""
        with self.client() as client:
            return [client.ask(one) for one in messages]

    def ended(self):
        """What the program writes after its first line, what it says but of connections and of messages that it
        refuses, and its exit status, once it has ended by itself; `listen` ends as its input does, and says when it
        begins and ends and whom it drops."""
        out, said = self.process.communicate(timeout=PATIENCE)
        of_connections = rb" listen: 127\.0\.0\.1:%d: (begins|ends: |dropped ).*\n" % self.port
        said = re.sub(rb"(?m)^pdpd(%b|: refused a message .*\n)" % of_connections, b"", said)
        return out, said, self.process.returncode

    def failed(self):
        """The same of a program that ends by a fault, whatever becomes of its input."""
        self.process.wait(PATIENCE)
        return self.ended()

    def kill(self):
        """Ends the program; `said` is what it has said on standard error, but for the line of its beginning."""
        self.process.kill()
        _, said = self.process.communicate()
        self.said = said.replace(b"pdpd listen: 127.0.0.1:%d: begins\n" % self.port, b"")

    def resident(self):
        """The most memory that it has held, in KiB."""
        with open(f"/proc/{self.process.pid}/status") as lines:
            return int(next(line for line in lines if line.startswith("VmHWM")).split()[1])

    def processor_seconds(self):
        return processor_seconds_of(self.process.pid)

    def __enter__(self):
        return self

    def __exit__(self, *what):
        if self.process.poll() is None:
            self.kill()


def answered(served, messages):
    """Sends the messages in pieces, and reads all replies; answers the first twelve bytes of the last."""
    with served.client() as client:
        held = []

        def read():
            while client.more():
                if len(client.held) > 1_000_000:
                    client.held = client.held[-1_000:]
            held.append(client.rest())
        reader = threading.Thread(target=read)
        reader.start()
        for at in range(0, len(messages), PIECE):
            client.send(b"".join(messages[at:at + PIECE]))
        client.ends_writing()
        reader.join()
        last = held[0].rfind(b"HTTP/1.1 ")
        return held[0][last:last + 12].decode()
