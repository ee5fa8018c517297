"""What runs below this process, by /proc: the words by which it was started, its memory and its processor time; and
the times of what a run tells, with the most memory that was held at once."""
import contextlib
import os
import pathlib
import re
import threading
import time

# How often memory is looked at, in seconds.
LOOKED_EVERY = 5


def descendants(of=None):
    """A process's children, and theirs; this one's, if none is named."""
    below = {}
    for process in pathlib.Path("/proc").glob("[0-9]*"):
        with contextlib.suppress(OSError):
            parent = int((process / "stat").read_text().rpartition(")")[2].split()[1])
            below.setdefault(parent, []).append(int(process.name))
    found = list(below.get(of or os.getpid(), []))
    for one in found:
        found += below.get(one, [])
    return found


def words_of(process):
    """The words by which a process was started."""
    with contextlib.suppress(OSError):
        return pathlib.Path(f"/proc/{process}/cmdline").read_text(errors="replace").split("\0")
    return [""]


def word_behind(flag, words):
    """The word behind a flag, if it is there."""
    return words[words.index(flag) + 1] if flag in words[:-1] else None


def name_of(process):
    """What a process works at: the crate that it compiles or proves, else its program's name."""
    words = words_of(process)
    return word_behind("--crate-name", words) or words[0].rpartition("/")[2] or "unknown"


def memory_of(process):
    """The bytes that a process holds, of pages that several share its share."""
    with contextlib.suppress(OSError):
        held = re.search(r"^Pss:\s+(\d+) kB", pathlib.Path(f"/proc/{process}/smaps_rollup").read_text(), re.M)
        return 1024 * int(held[1]) if held else 0
    return 0


class Watch:
    """When each crate was proved and what followed, in minutes; and the most memory that was held at once: how much,
    when, and by whom."""

    def __init__(self):
        self.began, self.proved, self.kept, self.marks = time.time(), {}, set(), {}
        self.most, self.most_at, self.held_by = 0, 0, {}
        threading.Thread(target=self.look, daemon=True).start()

    def look(self):
        while True:
            held = [(process, memory_of(process)) for process in descendants()]
            if (most := sum(memory for _, memory in held)) > self.most:
                self.most, self.most_at, self.held_by = most, self.minutes(), {}
                for process, memory in held:
                    name = name_of(process)
                    self.held_by[name] = self.held_by.get(name, 0) + memory / 1e9
            time.sleep(LOOKED_EVERY)

    def minutes(self):
        return (time.time() - self.began) / 60

    def note(self, line):
        """Notes what a line of a run says of a crate."""
        found = re.match(r"rt: (\w+) (proved|is kept)\b", line)
        if found and found[2] == "proved":
            self.proved.setdefault(found[1], self.minutes())
        elif found:
            self.kept.add(found[1])

    def mark(self, what):
        self.marks[what] = self.minutes()
