"""What each wrong body takes of a processor that `rt ci` tries below this process. It is seen by /proc, and rests on
how a kit names its folders: of a kit that names them otherwise nothing is seen."""
import contextlib
import os
import pathlib
import threading
import time

from watch import LOOKED_EVERY, descendants, word_behind, words_of

TOP = pathlib.Path(__file__).resolve().parent.parent


def edit_of(process):
    """The wrong body that a process tries, as its crate and its name; `seed` is the check before a crate's first
    one. `rt ci` tries it in a folder `rt-edit-..`. If a crate has several, what they prove is kept in folders
    `rt-edits-..`, by their numbers in order."""
    words, place = words_of(process), pathlib.Path("/")
    with contextlib.suppress(OSError):
        place = pathlib.Path(os.readlink(f"/proc/{process}/cwd"))
    crate, folder = word_behind("--crate-name", words), pathlib.Path(word_behind("--incremental", words) or "/")
    names = [path.stem for path in sorted((TOP / "crates" / (crate or "") / "must-fail").glob("*.edit"))]
    if folder.parent.name.startswith("rt-edits-"):
        is_one = folder.name.isdigit() and int(folder.name) < len(names)
        return crate, names[int(folder.name)] if is_one else folder.name
    return (crate, names[0]) if place.name.startswith("rt-edit-") and len(names) == 1 else None


def seconds_of(process):
    """The seconds of a processor that a process has had."""
    with contextlib.suppress(OSError):
        fields = pathlib.Path(f"/proc/{process}/stat").read_text().rpartition(")")[2].split()
        return sum(map(int, fields[11:15])) / os.sysconf("SC_CLK_TCK")
    return 0


class EditCosts:
    """The seconds of each wrong body, by its crate and its name, as long as it is looked."""

    def __init__(self):
        self.took = {}
        threading.Thread(target=self.look, daemon=True).start()

    def look(self):
        while True:
            for process in descendants():
                if edit := edit_of(process):
                    took = self.took.setdefault(edit[0], {})
                    took[edit[1]] = max(took.get(edit[1], 0), seconds_of(process))
            time.sleep(LOOKED_EVERY)
