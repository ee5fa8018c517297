"""The models of appending, applying and the lease (tests/model/replicas), each searched by spin over all of its
states; wrong ones are found out, and what has to happen somewhere is found."""
import re
import shutil
import subprocess

from audit_parts.shared import TOP, expect, folder

FOLDER = TOP / "tests" / "model" / "replicas"
MODELS = ("append", "apply", "lease", "carry")
# steps of one way, MB of memory, and how the search is compiled: assertions over the full state space
MOST_DEPTH, MOST_MEMORY = 1_000_000, 4_000
COMPILED = ("gcc", "-O2", "-w", "-DSAFETY", f"-DMEMLIM={MOST_MEMORY}", "-o", "search", "pan.c")


def searched(model, *defined):
    """What the search of a model says, with these words defined."""
    place = folder / "-".join((model, *defined))
    place.mkdir()
    shutil.copy(FOLDER / f"{model}.pml", place)
    run = {"cwd": place, "stdout": subprocess.PIPE, "stderr": subprocess.STDOUT, "text": True, "check": False}
    for words in (("spin", "-a", *(f"-D{word}" for word in defined), f"{model}.pml"), COMPILED):
        made = subprocess.run(words, **run)
        if made.returncode:
            return made.stdout
    said = subprocess.run(["nice", "./search", f"-m{MOST_DEPTH}"], **run).stdout
    shutil.rmtree(place)
    return said


def words_defined(model):
    """The wrong models, and what has to be found, as a model names them."""
    text = (FOLDER / f"{model}.pml").read_text()
    shows = re.findall(r"(?m)^#ifdef (SHOWS_\w+)", text)
    named = re.search(r"(?s)Wrong models: (.*?)\*/", text)[1]
    return re.findall(r"\b([A-Z]+_[A-Z]+) \(", named), shows


def is_whole(said):
    """Whether all states were looked at, and nothing was found."""
    return ("errors: 0" in said and "Full statespace search" in said and "Search not completed" not in said
            and "max search depth too small" not in said)


def models():
    """All states of each model, and what each wrong one violates."""
    if missing := [word for word in ("spin", "gcc") if not shutil.which(word)]:
        expect("commands for the models", missing, [])
        return
    wrong = []
    for model in MODELS:
        said = searched(model)
        expect(f"{model}.pml is right in all its states", "" if is_whole(said) else said[-300:], "")
        states = re.search(r"(\d+) states, stored", said)
        print(f"  {model}.pml: {int(states[1]):,} states" if states else said, flush=True)
        mistakes, shows = words_defined(model)
        for word in (*mistakes, *shows):
            found = re.search(r"assertion violated (.*) \(at depth (\d+)\)", searched(model, word))
            expect(f"{model}.pml with {word} is found out", bool(found), True)
            expect(f"{model}.pml with {word}: what is violated is a promise of the log, unless it has to be found",
                   bool(found) and found[1] == "0", word in shows)
            if found and word in mistakes:
                wrong.append(word)
                print(f"    {word}: {found[1]}", flush=True)
    wanted = {"NO_COMPARISON", "SYNC_LATER", "FROM_END", "NO_WAIT", "LATE_MESSAGE", "NO_LED", "NO_FENCE", "OPEN_COPY",
              "OLD_FILE", "NOTED_FIRST"}
    expect("wrong models that weren't found out", wanted - set(wrong), set())


PARTS = (models,)
