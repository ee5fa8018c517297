"""What the system says of processes, and what their logs end with."""
import contextlib
import os
import pathlib

# how many bytes of a log's end are read, and how many letters of a line are told
TAIL, TOLD = 4096, 300
# what stands behind the name of a file that was removed
REMOVED = " (deleted)"


def children_of(process):
    """The processes that a process has begun."""
    with contextlib.suppress(FileNotFoundError, ProcessLookupError):
        return [int(word) for word in pathlib.Path(f"/proc/{process}/task/{process}/children").read_text().split()]
    return []


def name_and_state(process):
    """The name of a process's program, and its state as a letter; nothing where it is gone."""
    with contextlib.suppress(FileNotFoundError, ProcessLookupError):
        before, _, words = pathlib.Path(f"/proc/{process}/stat").read_text(errors="replace").rpartition(")")
        return before.partition("(")[2], words.split()[0]
    return "", ""


def is_stopped(process):
    """Whether a process stands still, as by SIGSTOP."""
    return name_and_state(process)[1] == "T"


def parent_of(process):
    """The process that a process's end is told to; 0 where it is gone."""
    with contextlib.suppress(FileNotFoundError, ProcessLookupError):
        return int(pathlib.Path(f"/proc/{process}/stat").read_text(errors="replace").rpartition(")")[2].split()[1])
    return 0


def begin_of(process):
    """A process with when it began, as no other one has it; empty where it is gone."""
    with contextlib.suppress(FileNotFoundError, ProcessLookupError):
        words = pathlib.Path(f"/proc/{process}/stat").read_text(errors="replace").rpartition(")")[2].split()
        return f"{process} {words[19]}"
    return ""


def open_files(process):
    """The paths of the files that a process has open, as the system tells them."""
    found = []
    with contextlib.suppress(FileNotFoundError, ProcessLookupError):
        for place in pathlib.Path(f"/proc/{process}/fd").iterdir() if process else ():
            with contextlib.suppress(FileNotFoundError):
                found.append(os.readlink(place))
    return found


def removed_files(process):
    """The files that a process has open for writing and that were removed, each with its place in /proc."""
    found = {}
    with contextlib.suppress(FileNotFoundError, ProcessLookupError):
        for name in os.listdir(f"/proc/{process}/fd"):
            place = f"/proc/{process}/fd/{name}"
            link = os.readlink(place)
            if link.startswith("/") and link.endswith(REMOVED) and os.lstat(place).st_mode & 0o200:
                found[link.removesuffix(REMOVED)] = place
    return found


def has_program(name):
    """Whether a program of that name runs."""
    found = map(name_and_state, (path.name for path in pathlib.Path("/proc").glob("[0-9]*")))
    return any(each == name and state != "Z" for each, state in found)


def openers(path):
    """The processes that have a file open, as far as this one may look into them."""
    found = []
    for place in pathlib.Path("/proc").glob("[0-9]*/fd"):
        with contextlib.suppress(OSError):
            if any(os.readlink(f"{place}/{name}") == str(path) for name in os.listdir(place)):
                found.append(int(place.parent.name))
    return found


def end_of(path):
    """The last lines of a file; none where it isn't there."""
    try:
        with open(path, "rb") as file:
            file.seek(max(0, os.fstat(file.fileno()).st_size - TAIL))
            return file.read().decode(errors="replace").splitlines()
    except FileNotFoundError:
        return []


def last_of(lines):
    """The last of some lines that says something, or its beginning."""
    return next((line.strip()[:TOLD] for line in reversed(lines) if line.strip()), "")
