#!/usr/bin/env python3
"""Does what the guide shows, as a newcomer would: pastes the blocks of commands of README.md and docs/guide, as they
stand, in a copy of the repository in which only `make run` was run; decides the cases of the cookbook, and the page's
table of what an Indeterminate becomes; has the desk find the mistakes that are answered 200; and asks `pdpd-shards`
what stands before a first start.

usage: tests/guide.py PDPD XA_TRIALS [PART..]     the programs, proved or not (in place of the second `none`: the model
                                                  alone decides cases), and the parts that are run, all if none is
                                                  named: functions of this file

Of what is pasted only the ports are others, ones that nobody has; and PROGRAM in the environment names the program, so
that nothing is compiled. What is expected stands in the pages and in the cases, by the standard, and nothing of it is
taken from the programs.
"""
import json
import os
import pathlib
import re
import shutil
import signal
import socket
import subprocess
import sys
import tempfile
from unittest import mock

sys.dont_write_bytecode = True
TOP = pathlib.Path(__file__).resolve().parent.parent
sys.path.insert(0, str(TOP / "tests"))

import programs  # noqa: E402
from api_parts.examples import OPENAPI  # noqa: E402
from api_parts.openapi import read_openapi  # noqa: E402
from checks import Checks  # noqa: E402
from serving import free_port  # noqa: E402
from yaml_part import read_yaml  # noqa: E402

PDPD, XA_TRIALS = (word if word == "none" else os.path.abspath(word)
                   for word in (sys.argv[1:3] if len(sys.argv) > 2 else ("none", "")))
SPOKE = "by the model alone" if XA_TRIALS == "none" else "by model and program"
GUIDE = TOP / "docs" / "guide"
COOKBOOK = TOP / "examples" / "cookbook"
SECONDS = 1800
OK = '"Status":{"StatusCode":{"Value":"urn:oasis:names:tc:xacml:1.0:status:ok"}}'
ALGORITHM = "urn:oasis:names:tc:xacml:%s:rule-combining-algorithm:%s"
OF_MAKE = ("MAKELEVEL", "MAKEFLAGS", "MFLAGS", "MAKEOVERRIDES")
UNPROVED = "isn't known here"  # what is said of a program that somebody names
# nobody listens any more
CLOSED = "the port is closed"
ENDS = f"curl --silent --max-time 9 http://127.0.0.1:8080/ && exit 9; echo {CLOSED}"
# what `pdpd-shards` says, with folders of its own
SHARDS = """import sys
sys.path.insert(0, "deploy")
from operating import cli, settings
settings.LOCKS = settings.FILE.parent / "locks"
sys.exit(cli.main(sys.argv[1:]))
"""

checks = Checks("tests/guide.py")
expect = checks.expect


# ---- a copy of the repository

def repository(folder):
    """Copies the files of the repository, those that are new too, and nothing that is built."""
    asked = ["git", "ls-files", "-z", "--cached", "--others", "--exclude-standard"]
    ran = subprocess.run(asked, cwd=TOP, capture_output=True, text=True, check=False)
    if ran.returncode != 0:
        found = shutil.ignore_patterns("build", "out", ".git", "__pycache__")
        return shutil.copytree(TOP, folder, ignore=found, symlinks=True, dirs_exist_ok=True)
    for name in filter(None, ran.stdout.split("\0")):
        if (TOP / name).is_file() and not name.startswith(("crates/", "edits/")):
            (folder / name).parent.mkdir(parents=True, exist_ok=True)
            shutil.copy2(TOP / name, folder / name)
    return folder


def run(words, folder, **how):
    """Runs a command in a session of its own, whose processes all end with it: its status, and what it says. It is
    nobody's child: a `make` that knows of one above it says first which folder it enters."""
    ours = {name: value for name, value in os.environ.items() if name not in OF_MAKE}
    with tempfile.TemporaryFile() as output, subprocess.Popen(
            words, cwd=folder, stdin=subprocess.DEVNULL, stdout=output, stderr=subprocess.STDOUT,
            start_new_session=True, env={**ours, "DESK_PROGRAM": XA_TRIALS, "PROGRAM": PDPD, **how}) as process:
        try:
            process.wait(SECONDS)
        except subprocess.TimeoutExpired:
            pass
        finally:
            try:
                os.killpg(process.pid, signal.SIGKILL)
            except ProcessLookupError:
                pass
            process.wait()
        output.seek(0)
        return process.returncode, output.read().decode(errors="replace").replace("\r", "")


def blocks(page):
    """The commands of a page that are to be pasted, in their order."""
    return re.findall(r"(?ms)^```sh\n(.*?)^```$", (TOP / page).read_text(encoding="utf-8"))


def pasted(page, folder, port, before="", behind=""):
    """Pastes all blocks of a page into one shell; gives what they say, and expects that no command fails."""
    text = "\n".join([before, *blocks(page), behind])
    text = text.replace("127.0.0.1:8080", f"127.0.0.1:{port}").replace("127.0.0.1:8081", f"127.0.0.1:{free_port()}")
    status, said = run(["bash", "-euo", "pipefail", "-c", text], folder, WARD_PORT=str(port))
    expect(f"{page}: no command fails: {said[-3000:]}", status, 0)
    return said


class Copy:
    """A copy of the repository in which `make run` was run, and what that said."""

    def __enter__(self):
        self.made = tempfile.TemporaryDirectory()
        self.folder = repository(pathlib.Path(self.made.name))
        self.ran = [run(["make", "run"], self.folder) for _ in range(2)]
        return self

    def __exit__(self, *_):
        self.made.cleanup()


# ---- the parts

def paste():
    """The blocks of four pages."""
    with Copy() as copy:
        for status, said in copy.ran:
            expect(f"make run: {said[-2000:]}", status, 0)
            expect("make run says each time what its program lacks", UNPROVED in said.splitlines()[0], True)
        started = run(["bash", "-c", "build/pdpd --version"], copy.folder)[1]
        expect("and so does what it leaves, when it is started", UNPROVED in started and "pdpd 0." in started, True)
        readme(copy.folder)
        taken(copy.folder)
        said = pasted("docs/guide/RUNNING.md", copy.folder, free_port(), behind=f"wait $pid || true; {ENDS}")
        for wanted in ("listening 127.0.0.1:", '{"Domain":["acme"]}', "0 77\nHTTP/1.1 201 Created", CLOSED):
            expect(f"docs/guide/RUNNING.md shows {wanted}", wanted in said, True)
        said = pasted("docs/guide/API.md", copy.folder, free_port())
        expect("docs/guide/API.md: changes that are answered with {}", said.count("{}"), 7)
        expect("docs/guide/API.md: a decision",
               re.search(r'"Decision":"(Permit|Deny)".*' + re.escape(OK), said) is not None, True)
        expect("docs/guide/API.md: no error", '"Error"' in said, False)
        policies(copy.folder)


def readme(folder):
    """README.md starts a server that stays, and asks it."""
    port = free_port()
    # (what an earlier one said there isn't taken for this one's)
    (folder / "build" / "served").write_text("# It serves at another time\n")
    said = pasted("README.md", folder, port, behind=f"kill %1; wait; {ENDS}")
    expect(f"README.md: behind `kill %1` nobody listens: {said[-500:]}", CLOSED in said, True)
    expect("README.md: a decision", re.search(r'"Decision":"(Permit|Deny)"', said) is not None, True)
    expect("README.md: whoever starts the server is told what its program lacks", UNPROVED in said, True)


def taken(folder):
    """The commands of README.md that start a server say so and go on, where another program has its port."""
    with socket.create_server(("127.0.0.1", 0)) as held:
        port = held.getsockname()[1]
        status, said = run(["bash", "-c", blocks("README.md")[0]], folder, WARD_PORT=str(port))
    expect(f"README.md: no server starts: {said}", (status, f"pdpd listen: 127.0.0.1:{port}: " in said), (0, True))
    expect("and how another port is named", "WARD_PORT=" in said, True)


def policies(folder):
    """docs/guide/POLICIES.md goes from a recipe to a deployment and a decision, beside a server that stays."""
    serve = "\n".join(re.findall(r"(?m)^(?:mkdir|make serve|while) .*", "\n".join(blocks("README.md"))))
    said = pasted("docs/guide/POLICIES.md", folder, free_port(), before=serve, behind="kill %1; wait")
    for wanted in ("Deployed: number 1.", '"Decision":"Permit"', "0 failed"):
        expect(f"docs/guide/POLICIES.md shows {wanted}: {said[-3000:]}", wanted in said, True)


def desk(*words):
    """What a word of the policy author's desk ends with and says, in one line."""
    status, said = run([TOP / "tools" / "policy" / "policy.py", *map(str, words)], TOP)
    return status, " ".join(said.split())


def recipes():
    """Each recipe of the cookbook: its cases hold, and try each rule; the desk warns of nothing; the page names it."""
    page = (GUIDE / "POLICIES.md").read_text(encoding="utf-8")
    folders = sorted(path for path in COOKBOOK.iterdir() if path.is_dir())
    named = set(re.findall(r"(?m)^\| \[([\w-]+)\]\(\.\./\.\./examples/cookbook/\1/", page))
    expect("the recipes that the page names", sorted(named), [path.name for path in folders])
    expect("how many there are", len(folders), 8)
    for folder in folders:
        for cases in sorted(folder.glob("cases*.json")):
            count = len(json.loads(cases.read_text())["Case"])
            status, said = desk("test", "--coverage", cases)
            verdict = f"{count} cases: {count} ok, 0 failed, {SPOKE}"
            expect(f"{cases}: {said}", (status, verdict in said), (0, True))
            expect(f"{cases} tries all both ways: {said}", said.count(": no case where it"), 0)
        documents = sorted(set(folder.glob("*.json")) - set(folder.glob("cases*")) - {folder / "rows.json"})
        status, said = desk("check", "--strict", *documents, "--rows", folder / "rows.json")
        expect(f"{folder.name} is checked: {said}", (status, "0 faults, 0 warnings" in said), (0, True))


def cells(page, head):
    """The rows of the table of a page whose first line begins so, without the line below it, each with its cells."""
    text = (GUIDE / page).read_text(encoding="utf-8")
    table = text[text.index(head):].partition("\n\n")[0].splitlines()
    return [[cell.strip() for cell in line.strip("|").split(" | ")] for line in table[2:]]


def rule(name, effect, fails=False):
    """A rule that applies, or one whose condition can't be decided."""
    found = {"AttributeDesignator": {"Category": "AccessSubject", "AttributeId": "urn:example:nobody-has-it",
                                     "DataType": "string", "MustBePresent": True}}
    function = "urn:oasis:names:tc:xacml:1.0:function:string-is-in"
    condition = {"Apply": {"FunctionId": function, "Expression": [
        {"AttributeValue": {"DataType": "string", "Value": "x"}}, found]}}
    return {"RuleId": name, "Effect": effect, **({"Condition": condition} if fails else {})}


def failing(name, fails, beside):
    """A policy under the algorithm that a row of the table names, of a rule that can't be decided and another one."""
    algorithm = re.match("[a-z-]+", name)[0]
    rules = [rule("fails", fails, True), *([rule("beside", beside)] if beside else [])]
    return {"Policy": {
        "PolicyId": "urn:example:p", "Version": "1.0",
        "RuleCombiningAlgId": ALGORITHM % ("1.0" if algorithm == "first-applicable" else "3.0", algorithm),
        "Rule": rules[::-1] if name.endswith("last") else rules}}


def indeterminates():
    """The page's table of what an Indeterminate becomes under each algorithm, cell by cell."""
    table = cells("POLICIES.md", "| Algorithm | Permit rule fails, alone |")
    expect("the rows of the table", [row[0] for row in table], [
        "deny-overrides", "permit-overrides", "deny-unless-permit", "permit-unless-deny",
        "first-applicable, it stands first", "first-applicable, it stands last"])
    asked = [(fails, beside) for fails in ("Permit", "Deny") for beside in (None, "Permit", "Deny")]
    with tempfile.TemporaryDirectory() as made:
        for name, *decisions in table:
            expect(f"decisions of {name}", len(decisions), len(asked))
            for (fails, beside), decision in zip(asked, decisions):
                path = pathlib.Path(made) / f"{name}, {fails} beside {beside}"
                path.with_suffix(".json").write_text(json.dumps(failing(name, fails, beside)))
                case = {"Name": path.name, "Request": {"Request": {}}, "Decision": decision}
                path.with_suffix(".cases").write_text(json.dumps({"Policy": f"{path.name}.json", "Case": [case]}))
        files = sorted(pathlib.Path(made).glob("*.cases"))
        status, said = desk("test", *files)
        expect(f"the table: {said}", (status, said.count(" ok "), len(files)), (0, 36, 36))


def mistakes():
    """The desk finds each mistake that is answered 200, and says what the page says. That they are answered so,
    tests/api.py looks at."""
    examples = read_openapi(read_yaml(TOP, OPENAPI)).examples
    table = cells("API.md", "| Mistake | Example |")
    expect("how many mistakes the table has", len(table), 9)
    with tempfile.TemporaryDirectory() as made:
        policy, rows, request = (pathlib.Path(made) / f"{name}.json" for name in ("policy", "rows", "request"))
        policy.write_text(examples["policy-uploaded"].body)
        rows.write_text(examples["rows-set"].body)
        for what, name, _, finds in table:
            example = examples[name.strip("`")]
            expect(f"{what}: answered 200", example.reply.startswith(b"HTTP/1.1 200 "), True)
            request.write_text(example.body)
            (_, word, *_), phrase = (finds.replace("`", "").partition(": ")[place].split() for place in (0, 2))
            of_request = ["--policy", policy, "--rows", rows, "--request", request, "--at", "0"]
            of_root = [policy, "--root", "urn:example:record"]
            if phrase:  # `policy status` alone has none: it wants a server
                said = desk(word, *(of_root if word == "check" else of_request))[1]
                expect(f"{what}: policy {word} says {' '.join(phrase)}: {said}", " ".join(phrase) in said, True)


def commands():
    """Each error has something to run, and each word of the desk that the table names is one."""
    known = set(re.findall(r"(?m)^    (\w+) ", run([TOP / "tools" / "policy" / "policy.py", "--help"], TOP)[1]))
    for row in cells("API.md", "| Code | Status |"):
        expect(f"{row[0]} has something to run", len(row) == 5 and bool(row[4]), True)
        expect(f"{row[0]}: words of the desk", set(re.findall(r"`policy (\w+)", row[-1])) - known, set())
    unknown_to_the_desk()


def unknown_to_the_desk():
    """An error of a body that `policy check` doesn't know names the object whose members openapi.yaml lists."""
    page = read_yaml(TOP, OPENAPI)
    runs = {row[0].strip("`"): row[-1] for row in cells("API.md", "| Code | Status |")}
    bodies = {f"{method.upper()} {path}": next(iter(each["requestBody"]["content"].values()))["schema"]["$ref"]
              for path, methods in page["paths"].items() for method, each in methods.items()
              if isinstance(each, dict) and "requestBody" in each}
    found = 0
    for name, example in read_openapi(page).examples.items():
        code = re.search(rb'"Error":"(MissingMember|UnknownMember|BadValue)"', example.reply)
        body = bodies.get(example.route, "").rpartition("/")[2]
        if code and body not in ("Document", "RowsBody"):
            found += 1
            expect(f"{name}: what to look at", f"`{body}`" in runs[code[1].decode()], True)
    expect("errors of bodies of tokens and roots", found, 9)


def ready():
    """What is left in build/: the program that is proved, else a script that starts the other one and says what it
    lacks. The first of three is taken that is there."""
    with tempfile.TemporaryDirectory() as made:
        top = pathlib.Path(made).resolve()
        of_test = {"TOP": top, "UNPROVED": top / "unproved", "fingerprint": lambda *_: "sources", "say": lambda _: None}
        with mock.patch.multiple(programs, **of_test):
            places = {"quick": programs.unproved_path("pdpd", programs.QUICKLY),
                      "unproved": programs.unproved_path("pdpd", programs.OPTIMISED),
                      "proved": programs.prover_output("pdpd")}
            for name, path in places.items():
                path.parent.mkdir(parents=True, exist_ok=True)
                path.write_text(f"#!/bin/sh\necho {name} $1\n")
                path.chmod(0o755)
                programs.note(path, "sources")
                said = run([programs.ready_program("pdpd"), "x"], TOP)[1]
                expect(f"the program {name} starts: {said}", said.endswith(f"{name} x\n"), True)
                expect(f"and says that nothing is proved: {said}", "without proof" in said, name != "proved")
                expect(f"and that it is slow: {said}", "many times as long" in said, name == "quick")
            places["proved"].write_text("#!/bin/sh\necho another\n")
            expect("one of other sources isn't taken", run([programs.ready_program("pdpd")], TOP)[1].split()[-1],
                   "unproved")
            named(programs.ready_program("pdpd"), top)


def named(placed, top):
    """A program that is named: that in build/ itself stays there as it is, and what can't be started is refused."""
    before = placed.read_bytes()
    expect("build/pdpd may be named", programs.ready_program("pdpd", placed), placed)
    expect("and is left as it was", placed.read_bytes() == before, True)
    text = top / "text"
    text.write_text("no program\n")
    for path in (top / "nothing", top, text):
        try:
            said = str(programs.ready_program("pdpd", path))
        except programs.NotBuilt as fault:
            said = str(fault)
        expect(f"{path.name} is refused: {said}", "is no program that can be started" in said, True)
        expect("and what was in build/ is left", placed.read_bytes() == before, True)


def operator():
    """What `pdpd-shards` says before a first start, and which file it names: the one in PDPD_SETTINGS."""
    with tempfile.TemporaryDirectory() as made:
        held = (TOP / "deploy" / "shards.conf").read_text(encoding="utf-8")
        file = pathlib.Path(made) / "own.conf"
        # none of an installation that this machine may have
        folders = "DATA|BACKUPS|HAPROXY_ETC|HAPROXY_RUN|SERVICES|SERVICE_FOLDERS"
        held = re.sub(f"(?m)^({folders})=.*$", rf"\1={made}/\1", held)
        for name, value in (("SUPERVISOR", "runit"), ("FIRST_PORT", "900")):
            held = re.sub(f"(?m)^{name}=.*$", f"{name}={value}", held)
        file.write_text(held)

        def shards(*words):
            return run([sys.executable, "-c", SHARDS, *words], TOP, PDPD_SETTINGS=str(file))
        status, said = shards("backup")
        expect(f"backup: a sentence, and what to do: {said}",
               (status, said.count("\n"), "shard 0 doesn't run: start it" in said), (1, 1, True))
        status, said = shards("config")
        expect(f"config: {said[:200]}", (status, f"of {file}: what" in said, "/etc/pdpd/shards.conf" in said),
               (0, True, False))


def main():
    if len(sys.argv) < 3:
        print(__doc__, file=sys.stderr)
        return 2
    checks.run((ready, paste, recipes, indeterminates, mistakes, commands, operator), sys.argv[3:])
    return checks.status()


if __name__ == "__main__":
    sys.exit(main())
