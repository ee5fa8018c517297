"""Where connections are taken: IP addresses, and Unix sockets."""
import socket
import stat
import subprocess

from said import LISTENED, OCCUPIED, PLACE_BAD, TAKEN, UNMADE, line
from serve_parts.shared import ASK, LIST, PERMIT, PROGRAM, TOKEN_FILE, expect_refusal, folder, listing
from serving import PATIENCE, Client, free_port, making

from .shared import expect


class At:
    """The program at an address, which is killed at the end of the `with` statement."""

    def __init__(self, name, address, **more):
        self.process = subprocess.Popen([PROGRAM, "listen", str(folder / name), address, TOKEN_FILE], **more,
                                        stdin=subprocess.DEVNULL, stdout=subprocess.PIPE, stderr=subprocess.PIPE)
        self.first_line = self.process.stdout.readline()

    def __enter__(self):
        return self

    def __exit__(self, *what):
        self.process.kill()
        self.process.communicate()


def client_of(family, address):
    """A client of a socket of that family at that address."""
    client = Client.__new__(Client)
    client.socket, client.held = socket.socket(family), b""
    client.socket.settimeout(PATIENCE)
    client.socket.connect(address)
    return client


def internet():
    """IPv4 and IPv6."""
    for family, host, text in ((socket.AF_INET, "127.0.0.1", "127.0.0.1"), (socket.AF_INET6, "::1", "[::1]")):
        port = free_port()
        with At("internet.db", f"{text}:{port}") as at:
            expect(f"the line of {text}", at.first_line, f"listening {text}:{port}\n".encode())
            with client_of(family, (host, port)) as client:
                expect(f"a list at {text}", client.ask(LIST), listing([]))


def unix():
    """A Unix socket: its owner and group alone can use it, and one that was left behind is made anew."""
    path = folder / "pdpd.sock"
    for umask in (0o022, 0o077):
        with At("unix.db", f"unix:{path}", umask=umask) as at:
            expect("its line", at.first_line, f"listening unix:{path}\n".encode())
            expect("its mode", stat.S_IMODE(path.stat().st_mode), 0o660)
            with client_of(socket.AF_UNIX, str(path)) as client, client_of(socket.AF_UNIX, str(path)) as second:
                expect("a list over it", client.ask(LIST), listing([]))
                expect("a second at once", second.ask(LIST), listing([]))
        expect("it is left behind by a kill", path.exists(), True)
    with At("unix.db", f"unix:{path}"), client_of(socket.AF_UNIX, str(path)) as client:
        messages = making("acme", "acme-token-1")
        expect("a domain is made over it", [client.ask(held) for held, _ in messages],
               [wanted for _, wanted in messages])
        expect("an ask over it", client.ask(ASK), PERMIT)
        client.send(ASK * 1_000)
        expect("a thousand asks at once over it", [client.reply() for _ in range(1_000)], [PERMIT] * 1_000)


def occupied():
    """A path where something else stands, or a socket at which another listens, is left as it is."""
    path = folder / "other"
    path.write_bytes(b"mine")
    words = ["listen", str(folder / "occupied.db"), f"unix:{path}", TOKEN_FILE]
    expect_refusal("a file stands there", words, 5, line(f"unix:{path}", OCCUPIED))
    expect("it is left", path.read_bytes(), b"mine")
    path.unlink()
    path.symlink_to(folder / "nowhere")
    expect_refusal("a link stands there", words, 5, line(f"unix:{path}", OCCUPIED))
    path.unlink()
    with socket.socket(socket.AF_UNIX) as held:
        held.bind(str(path))
        held.listen()
        expect_refusal("another listens there", words, 5, line(f"unix:{path}", LISTENED))
        expect("its socket is left", path.is_socket(), True)
    with socket.socket() as held:
        held.bind(("127.0.0.1", 0))
        held.listen()
        address = f"127.0.0.1:{held.getsockname()[1]}"
        expect_refusal("a port in use", ["listen", str(folder / "occupied.db"), address, TOKEN_FILE], 5,
                       line(address, TAKEN))


def unusable():
    """Paths that no socket can have."""
    for path in ("", "x" * 108, "/nowhere/" + "x" * 100):
        words = ["listen", str(folder / "unusable.db"), f"unix:{path}", TOKEN_FILE]
        expect_refusal(f"a path of {len(path)} bytes", words, 2, line(f"unix:{path}", PLACE_BAD))
    path = folder / "nowhere" / "socket"
    expect_refusal("a folder that isn't there", ["listen", str(folder / "unusable.db"), f"unix:{path}", TOKEN_FILE], 5,
                   line(f"unix:{path}", UNMADE))
