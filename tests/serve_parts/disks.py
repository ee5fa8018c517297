"""Kills, full disks and syncs that fail: all that was answered is there, and nothing by half."""
import json
import os
import resource
import shutil
import subprocess
import tempfile

from growths import compiled
from killing import CHANGES, kills_of_all
from said import SHUT, line
from serving import CREATED, UNAVAILABLE

from .shared import (
    ASK, LIST, MIB, PERMIT, PROGRAM, SEED, checks, creates, environment, expect, folder, in_acme, listing, make_domain,
    names, replies_up_to_end, serving, upload_of)

# How often the program is killed over each store: over four on a disk, where most of its time is that of the disk;
# over two until their logs are written back into them; and over many new ones, in memory, where a file system there
# has the usual place, for a kill loses nothing that was written.
MEMORY = "/dev/shm" if os.access("/dev/shm", os.W_OK) else None
KILLS = [(MEMORY, 100)] * 2 + [(None, 25)] * 4 + [(MEMORY, 25)] * 28


def kills():
    """The program is killed under load at 1,000 moments, over stores side by side: each time what was answered is
    there, and nothing by half."""
    folders = [(tempfile.mkdtemp(prefix="pdpd-kills-", dir=place), count) for place, count in KILLS]
    try:
        report = kills_of_all(PROGRAM, folders, SEED)
    finally:
        for place, _ in folders:
            shutil.rmtree(place)
    for what, found, wanted in report.wrong:
        expect(what, found, wanted)
    expect("how many kills there were", report.kills, sum(count for _, count in KILLS))
    struck = {kind for kind, _ in report.struck}
    expect("each kind of change was under way at a kill", [kind for kind in CHANGES if kind not in struck], [])
    expect("some were made and some were not", {is_made for kind, is_made in report.struck if kind in CHANGES},
           {True, False})
    checks.count += report.kills
    print(f"{checks.name}: {report}")


# ---- a small disk

def small_disk(size):
    """A folder of so many bytes, or None without the rights to make one."""
    small = folder / "small"
    small.mkdir()
    did = subprocess.run(["mount", "-t", "tmpfs", "-o", f"size={size}", "none", str(small)], capture_output=True)
    return small if did.returncode == 0 else None


def ids_of(listed):
    """The ids of the documents that a reply lists."""
    return {it["Id"] for it in json.loads(listed.partition(b"\r\n\r\n")[2] or b"{}").get("Policy", ())}


def full_disk():
    """Uploads until the disk is full: 503, nothing has changed, readings are answered; with more room all that was
    answered with 201 is there."""
    small = small_disk(3 * MIB)
    if small is None:
        print(f"{checks.name}: a small disk can't be mounted here (that takes the rights of root): left out")
        return
    try:
        kept, refused = fill(small)
        subprocess.run(["mount", "-o", f"remount,size={64 * MIB}", str(small)], check=True)
        behind_full(small, kept, refused)
    finally:
        subprocess.run(["umount", str(small)], check=True)


def fill(small):
    """Fills the disk; the ids of the documents that were taken, and of those that were refused."""
    kept, refused = {"urn:p"}, set()
    with serving(small / "store.db") as served:
        make_domain(served)
        with served.client() as client:
            for number in range(250):
                found = client.ask(upload_of(number))
                (kept if found == CREATED else refused).add(f"urn:u{number:03}")
                if found != CREATED:
                    expect(f"upload {number} on a full disk", found, UNAVAILABLE)
                if len(refused) >= 5:
                    break
            expect("the disk is full: so many uploads are refused", len(refused), 5)
            expect("an ask on a full disk", client.ask(ASK), PERMIT)
            listed = client.ask(in_acme("GET pap/policies"))
            expect("the documents on a full disk", (listed[:12], ids_of(listed)), (b"HTTP/1.1 200", kept))
        expect("an ask on the next connection", served.once(ASK), [PERMIT])
    return kept, refused


def behind_full(small, kept, refused):
    """That what was kept is there once there is more room, and more is taken."""
    with serving(small / "store.db") as served:
        expect("the store opens where there is room again", served.listened(), None)
        found = ids_of(served.once(in_acme("GET pap/policies"))[0])
        expect("all that was answered is there: what isn't", kept - found, set())
        expect("nothing else is there but of what was refused", found - kept - refused, set())
        expect("an upload where there is room again", served.once(upload_of(249), ASK), [CREATED, PERMIT])


def file_size():
    """A limit of a file's size, where its signal is ignored: 503 once it is reached, and what was answered is there."""
    def limited():
        resource.setrlimit(resource.RLIMIT_FSIZE, (MIB, MIB))

    with serving("size.db") as served:
        make_domain(served)
    # Python ignores SIGXFSZ, and so the program does then
    with serving("size.db", preexec_fn=limited, restore_signals=False) as served, served.client() as client:
        for number in range(40):
            found = client.ask(upload_of(number))
            if found != CREATED:
                expect(f"upload {number} at a limit of a file's size", found, UNAVAILABLE)
                break
        expect("the limit was reached: the last reply", found, UNAVAILABLE)
    with serving("size.db", 1) as served:
        expect("without the limit all is there", served.once(LIST, ASK), [listing(["acme"]), PERMIT])


# ---- a store that is shut

# Put before the C library: fdatasync fails once there is a file of that name, but for as many calls
# as the file has bytes.
FAILING_SYNC = r"""
#define _GNU_SOURCE
#include <dlfcn.h>
#include <errno.h>
#include <stdlib.h>
#include <sys/stat.h>

int fdatasync(int file) {
    static int (*next)(int);
    static long counted;
    struct stat found;
    const char *place = getenv("FAILING_SYNC");
    if (!next) next = dlsym(RTLD_NEXT, "fdatasync");
    if (!place || stat(place, &found) != 0 || counted++ < found.st_size) return next(file);
    errno = EIO;
    return -1;
}
"""


def shut():
    """A sync fails: its change is answered 503, and the program says that its store can't go on and ends with status
    4; started again it serves all that was answered."""
    if shutil.which("cc") is None:
        print(f"{checks.name}: a sync can't be made to fail here (that takes cc): left out")
        return
    library, failing = compiled(FAILING_SYNC, str(folder / "failing-sync.so")), folder / "failing"
    surroundings = environment(LD_PRELOAD=library, FAILING_SYNC=str(failing))
    with serving("shut.db", 1) as served:
        make_domain(served)
    kept = ["acme"]
    for spared in range(4):
        what, new = f"{spared} syncs", [f"d{spared}-{place}" for place in range(5)]
        with serving("shut.db", env=surroundings) as served:
            expect(f"{what}: all is there", served.once(LIST, ASK), [listing(kept), PERMIT])
            failing.write_bytes(b"x" * spared)
            found = replies_up_to_end(served, ASK + b"".join(map(creates, new)))
            count = found.count(CREATED)
            expect(f"{what}: each change has one, that whose sync fails is refused, and none behind it is answered",
                   (count <= spared, found), (True, PERMIT + CREATED * count + UNAVAILABLE))
            expect(f"{what}: the program ends", served.failed(), (b"", line(folder / "shut.db", SHUT), 4))
        failing.unlink()
        with serving("shut.db") as served:
            found = names(served)
            expect(f"{what}: all that was answered is there, and of what was refused all or nothing",
                   sorted(set(found) - {new[count]}), sorted(kept + new[:count]))
            kept = sorted([*found, f"then-{spared}"])
            expect(f"{what}: an ask and a change", served.once(ASK, creates(f"then-{spared}"), LIST),
                   [PERMIT, CREATED, listing(kept)])
