"""Clients as there are: curl over HTTP/1.0, pools of connections, and a proxy."""
import concurrent.futures
import contextlib
import http.client
import resource
import selectors
import shutil
import socket
import subprocess
import threading
import time

from checks import Between
from serve_parts.shared import ASK, PERMIT, folder
from serving import PATIENCE, free_port

from .shared import checks, expect, listening, timed, within

BODY = '{"Request":{}}'
FIELDS = {"Authorization": "Bearer acme-token-1", "Content-Type": "application/json"}
POOL, ASKS = 16, 25
PROXIED, PROXIED_ASKS = 1_000, 5
# A pool of Java's own client: so many threads share it, and each asks so often. It prints how many replies were those
# wanted, and the longest wait in milliseconds.
POOL_OF_JAVA = """
import java.net.URI;
import java.net.http.HttpClient;
import java.net.http.HttpRequest;
import java.net.http.HttpResponse;
import java.util.concurrent.Executors;
import java.util.concurrent.ExecutorService;
import java.util.concurrent.TimeUnit;
import java.util.concurrent.atomic.AtomicInteger;
import java.util.concurrent.atomic.AtomicLong;

public final class Pool {
    public static void main(String[] words) throws Exception {
        int threads = Integer.parseInt(words[1]), asks = Integer.parseInt(words[2]);
        HttpClient client = HttpClient.newBuilder().version(HttpClient.Version.HTTP_1_1).build();
        HttpRequest ask = HttpRequest.newBuilder(URI.create(words[0])).header("Authorization", words[3])
            .header("Content-Type", "application/json").POST(HttpRequest.BodyPublishers.ofString(words[4])).build();
        AtomicInteger right = new AtomicInteger();
        AtomicLong longest = new AtomicLong();
        ExecutorService pool = Executors.newFixedThreadPool(threads);
        for (int thread = 0; thread < threads; thread++) {
            pool.submit(() -> {
                for (int number = 0; number < asks; number++) {
                    long began = System.nanoTime();
                    HttpResponse<String> reply = client.send(ask, HttpResponse.BodyHandlers.ofString());
                    longest.accumulateAndGet((System.nanoTime() - began) / 1_000_000, Math::max);
                    if (reply.statusCode() == 200 && reply.body().equals(words[5])) right.incrementAndGet();
                    Thread.sleep(2);
                }
                return null;
            });
        }
        pool.shutdown();
        pool.awaitTermination(60, TimeUnit.SECONDS);
        System.out.println(right + " " + longest);
        System.exit(0);
    }
}
"""


def old_curl():
    """curl over HTTP/1.0, which closes behind each reply, and over HTTP/1.1."""
    if shutil.which("curl") is None:
        print(f"{checks.name}: curl isn't here: left out")
        return
    with listening("curl") as served:
        url = f"http://127.0.0.1:{served.port}/domains/acme/pdp"
        for version in ("--http1.0", "--http1.1"):
            ran, seconds = timed(lambda version=version: subprocess.run(
                ["curl", "-s", version, "-H", "Authorization: Bearer acme-token-1", "-H",
                 "Content-Type: application/json", "-d", BODY, url, url],
                capture_output=True, timeout=60, check=False))
            expect(f"curl {version}", (ran.returncode, ran.stdout), (0, PERMIT.partition(b"\r\n\r\n")[2] * 2))
            within(f"curl {version}: seconds", seconds, Between(0, 5))


def ask_by(connection):
    connection.request("POST", "/domains/acme/pdp", BODY, FIELDS)
    answered = connection.getresponse()
    return answered.status, answered.read()


def pooled():
    """A pool of Python's connections that stay open, each asked by a thread now and then: none waits for another."""
    wanted = (200, PERMIT.partition(b"\r\n\r\n")[2])
    with listening("pooled") as served:
        kept = threading.local()

        def asks(_):
            if not hasattr(kept, "connection"):
                kept.connection = http.client.HTTPConnection("127.0.0.1", served.port, timeout=30)
            found, seconds = timed(lambda: ask_by(kept.connection))
            time.sleep(0.002)
            return found == wanted, seconds

        with concurrent.futures.ThreadPoolExecutor(POOL) as pool:
            found = list(pool.map(asks, range(POOL * ASKS)))
        expect("asks of a pool", sum(right for right, _ in found), POOL * ASKS)
        within("the longest wait, in seconds", max(seconds for _, seconds in found), Between(0, 5))


def pooled_by_java():
    """The same with a pool of Java's own client."""
    if shutil.which("java") is None:
        print(f"{checks.name}: java isn't here: left out")
        return
    program = folder / "Pool.java"
    program.write_text(POOL_OF_JAVA, encoding="ascii")
    with listening("pooled_by_java") as served:
        url = f"http://127.0.0.1:{served.port}/domains/acme/pdp"
        ran = subprocess.run(["java", str(program), url, str(POOL), str(ASKS), FIELDS["Authorization"], BODY,
                              PERMIT.partition(b"\r\n\r\n")[2].decode()],
                             capture_output=True, text=True, timeout=120, check=False)
        right, longest = (ran.stdout.split() or ["none", "0"])[:2]
        expect("asks of a pool of Java's", (right, ran.stderr), (str(POOL * ASKS), ""))
        within("the longest wait, in milliseconds", int(longest), Between(0, 5_000))


# (it has some more connections than messages at a time: beyond 64 the program ends one that it may just send on)
PROXY = """
global
    maxconn 2500
defaults
    mode http
    timeout connect 60s
    timeout client 60s
    timeout server 60s
    timeout queue 60s
    http-reuse always
frontend all
    bind 127.0.0.1:{front}
    default_backend server
backend server
    server one 127.0.0.1:{port} maxconn 30
"""


def proxied():
    """HAProxy before the program, which uses its connections again, and 1,000 clients that are there at once."""
    if shutil.which("haproxy") is None:
        print(f"{checks.name}: HAProxy isn't here: left out")
        return
    with listening("proxied") as served, descriptors(4_096):
        front, config = free_port(), folder / "haproxy.cfg"
        config.write_text(PROXY.format(front=front, port=served.port), encoding="ascii")
        with subprocess.Popen(["haproxy", "-db", "-f", str(config)], stdout=subprocess.DEVNULL,
                              stderr=subprocess.PIPE) as proxy:
            try:
                expect("asks through the proxy", asked_through(front), PROXIED * PROXIED_ASKS)
            finally:
                proxy.kill()
        expect("an ask beside it", served.once(ASK), [PERMIT])


def wait_for(port):
    """Waits until connections are taken at a port."""
    until = time.monotonic() + PATIENCE
    while time.monotonic() < until:
        try:
            socket.create_connection(("127.0.0.1", port), timeout=PATIENCE).close()
            return
        except ConnectionRefusedError:
            time.sleep(0.1)


class Asking:
    """A client that asks again and again over one connection, and never waits in a call."""

    def __init__(self, port, asks):
        self.left, self.right, self.held = asks, 0, b""
        self.socket = socket.create_connection(("127.0.0.1", port), timeout=PATIENCE)
        self.socket.setblocking(False)
        self.ask()

    def ask(self):
        self.socket.send(ASK)

    def goes_on(self):
        """Reads what has come, and asks again behind a whole reply; whether more is to come."""
        came = self.socket.recv(4_096)
        self.held += came
        if not came:
            return False
        if len(self.held) < len(PERMIT):
            return True
        self.right += status_and_body(self.held) == status_and_body(PERMIT)
        self.left, self.held = self.left - 1, b""
        if self.left:
            self.ask()
        return self.left > 0


def status_and_body(reply):
    """What a proxy, which writes the fields anew, leaves as it is."""
    head, _, body = reply.partition(b"\r\n\r\n")
    return head.split(b" ")[1:2], body


@contextlib.contextmanager
def descriptors(count):
    """This process may have so many descriptors, and what it starts, too."""
    soft, hard = resource.getrlimit(resource.RLIMIT_NOFILE)
    resource.setrlimit(resource.RLIMIT_NOFILE, (min(max(soft, count), hard), hard))
    try:
        yield
    finally:
        resource.setrlimit(resource.RLIMIT_NOFILE, (soft, hard))


def asked_through(port):
    """How many asks of all clients, which are there at once, were answered as they are to be."""
    wait_for(port)
    clients = [Asking(port, PROXIED_ASKS) for _ in range(PROXIED)]
    with selectors.DefaultSelector() as selector:
        for one in clients:
            selector.register(one.socket, selectors.EVENT_READ, one)
        while selector.get_map():
            ready = selector.select(timeout=60)
            if not ready:
                break
            for key, _ in ready:
                if not key.data.goes_on():
                    selector.unregister(key.fileobj)
    for one in clients:
        one.socket.close()
    return sum(one.right for one in clients)
