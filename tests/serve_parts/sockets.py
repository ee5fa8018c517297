"""Where connections can't be taken, connections that wait, and the last one."""
import errno
import shutil
import socket
import subprocess
import threading
import time

from checks import Between
from growths import compiled
from said import NO_FOLDER, NO_OUTPUT, NOT_TAKEN, TAKEN, TOKEN_UNREAD, line
from serving import CREATED, free_port

from .shared import (
    ASK, LIST, PERMIT, PROGRAM, checks, creates, ends_well, environment, expect, expect_refusal, folder, listing,
    make_domain, serving, within, words_to_serve)


def sockets():
    """Addresses at which nothing can be taken: status 5, behind a fault of the store; and standard
    output that fails: 1."""
    path, absent, no_token = folder / "sockets.db", folder / "none/store.db", folder / "no-token"
    with socket.socket() as held:
        held.bind(("127.0.0.1", 0))
        held.listen()
        address = f"127.0.0.1:{held.getsockname()[1]}"
        expect_refusal("a port in use", words_to_serve(path, address), 5, line(address, TAKEN))
        expect_refusal("the store goes before the port", words_to_serve(absent, address), 4, line(absent, NO_FOLDER))
        expect_refusal("the token file goes before both", words_to_serve(absent, address, no_token), 2,
                       line(no_token, TOKEN_UNREAD))
    address = "192.0.2.1:8080"
    expect_refusal("an address that isn't this machine's", words_to_serve(path, address), 5, line(address, TAKEN))
    with open("/dev/full", "wb") as full:
        ran = subprocess.run([PROGRAM, *words_to_serve(path, f"127.0.0.1:{free_port()}")], stdin=subprocess.DEVNULL,
                             stdout=full, stderr=subprocess.PIPE, timeout=20)
    expect("standard output that is full", (ran.returncode, ran.stderr), (1, NO_OUTPUT))
    with serving("sockets.db") as served:
        expect("after these the store opens", served.once(LIST), [listing([])])


# Put before the C library: accept4 fails by the numbers that the environment lists, one after
# another, and then no more.
FAILING_ACCEPT = r"""
#define _GNU_SOURCE
#include <dlfcn.h>
#include <errno.h>
#include <stdlib.h>
#include <sys/socket.h>

int accept4(int file, struct sockaddr *address, socklen_t *length, int flags) {
    static int (*next)(int, struct sockaddr *, socklen_t *, int);
    static char *numbers;
    if (!next) {
        next = dlsym(RTLD_NEXT, "accept4");
        numbers = getenv("FAILING_ACCEPT");
    }
    long number = numbers ? strtol(numbers, &numbers, 10) : 0;
    if (number == 0) return next(file, address, length, flags);
    errno = (int)number;
    return -1;
}
"""
# What a peer or the network has done, or want of room, by which the next connection is taken (accept(2)); and
# what is the listener's.
PASSING = [errno.ECONNABORTED, errno.ECONNRESET, errno.EHOSTUNREACH, errno.ENETUNREACH, errno.ENETDOWN, errno.ETIMEDOUT,
           errno.EINTR, errno.EPROTO, errno.ENOPROTOOPT, errno.EHOSTDOWN, errno.ENONET, errno.EOPNOTSUPP, errno.EMFILE,
           errno.ENFILE, errno.ENOMEM, errno.ENOBUFS]
OF_THE_LISTENER = [errno.EBADF, errno.EINVAL, errno.EPERM]


def taking():
    """Connections that can't be taken: by the peer, the network or want of room the next is taken, up to 999 in a row;
    else the program ends with status 5."""
    if shutil.which("cc") is None:
        print(f"{checks.name}: taking a connection can't be made to fail here (that takes cc): left out")
        return
    library = compiled(FAILING_ACCEPT, str(folder / "failing-accept.so"))

    def serving_by(numbers, connections):
        surroundings = environment(LD_PRELOAD=library, FAILING_ACCEPT=" ".join(map(str, numbers)))
        return serving("taking.db", connections, env=surroundings)

    with serving_by(PASSING, 2) as served:
        make_domain(served)
        expect("an ask behind connections that couldn't be taken", served.once(ASK), [PERMIT])
        ends_well("after these", served)
    with serving_by([errno.ECONNABORTED] * 999, 1) as served:
        expect("an ask behind 999 of them", served.once(ASK), [PERMIT])
        ends_well("after 999", served)
    for what, numbers in [("1,000 in a row", [errno.ECONNABORTED] * 1_000),
                          *((errno.errorcode[number], [number]) for number in OF_THE_LISTENER)]:
        with serving_by(numbers, 1) as served:
            expect(f"no connection can be taken, {what}", served.failed(),
                   (b"", line(f"127.0.0.1:{served.port}", NOT_TAKEN), 5))


# ---- connections that wait

def gives_nothing():
    """Connections that give nothing, or stop within a message, under a limit of a second."""
    with serving("idle.db", 4, env=environment(PDPD_IDLE="1", PDPD_MESSAGE="1")) as served:
        make_domain(served)
        for what, held in (("nothing", b""), ("half a head", b"GET / HTTP/1.1\r\nX: y"), ("half a body", ASK[:-3])):
            began = time.time()
            with served.client() as client:
                client.send(held)
                expect(f"{what}: all that comes", client.all(), b"")
            within(f"{what}: the seconds until it ended", time.time() - began, Between(0.8, 5))
        ends_well("silent connections", served)


def takes_nothing():
    """A connection that takes no replies, under the same limit."""
    with serving("idle.db", 2, env=environment(PDPD_IDLE="1")) as served:
        with served.client() as client:
            client.socket.setsockopt(socket.SOL_SOCKET, socket.SO_RCVBUF, 4_096)
            try:
                for _ in range(200_000):
                    client.send(LIST)
            except (ConnectionError, TimeoutError):
                pass
            expect("after one that takes nothing the next is served", served.once(ASK), [PERMIT])
        ends_well("a connection that takes nothing", served)


def idle_as_set():
    """A connection that gives nothing for as long as PDPD_IDLE says, or takes nothing, ends, and the next is
    served; with 0 it waits."""
    gives_nothing()
    takes_nothing()
    with serving("idle.db", 1, env=environment(PDPD_IDLE="0")) as served, served.client() as client:
        expect("without a limit it is waited for", client.is_silent(2.5), True)
        expect("and answered", client.ask(ASK), PERMIT)


def idle():
    """Where PDPD_IDLE isn't set a connection that gives nothing ends after 30 seconds; meanwhile, where it is set."""
    surroundings, ended = {name: held for name, held in environment().items() if name != "PDPD_IDLE"}, []
    with serving("unset.db", 1, env=surroundings) as served, served.client() as client:
        client.socket.settimeout(60)
        began = time.time()
        waiting = threading.Thread(target=lambda: ended.extend((client.all(), time.time() - began)))
        waiting.start()
        idle_as_set()
        waiting.join()
        expect("nothing, where no limit is set: all that comes", ended[:1], [b""])
        within("nothing, where no limit is set: the seconds until it ended", ended[-1], Between(28, 45))


def last():
    """Once the last connection has come no more are taken: who comes then is refused at once."""
    with serving("last.db", 2) as served:
        expect("the first", served.once(LIST), [listing([])])
        with served.client() as client:
            expect("the last", client.ask(LIST), listing([]))
            try:
                served.client().close()
                found = "taken"
            except ConnectionRefusedError:
                found = "refused"
            expect("one that comes behind the last", found, "refused")
            expect("the last goes on", client.ask(creates("beta")), CREATED)
        ends_well("the last", served)
