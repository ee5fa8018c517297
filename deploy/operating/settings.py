"""What the operator has set: lines NAME=VALUE of a file that the shell reads as well."""
import contextlib
import fcntl
import json
import os
import pathlib
import re
import shlex
import signal
import sys
import tempfile
import time

from replica.groups import groups_in
from replica.machines import machines_in

LIBRARY = pathlib.Path(__file__).resolve().parent.parent
FILE = pathlib.Path(os.environ.get("PDPD_SETTINGS", "/etc/pdpd/shards.conf"))
# the least and the most of each number
NUMBERS = {
    "SHARDS": (1, 64), "FIRST_PORT": (1, 65_000), "KEEP_BACKUPS": (1, 100_000),
    "WORK": (0, 2 ** 63), "READING": (0, 2 ** 63), "THREADS": (1, 64), "MAXCONN": (1, 60), "RATE": (0, 1_000_000),
    "CHANGE_RATE": (0, 1_000_000), "RESERVE": (0, 100_000),
    "CLIENTS": (1, 100_000), "UNDER_WAY": (10, 100_000), "OF_SOURCE": (0, 100_000), "REFUSALS": (0, 1_000_000),
    "AUDIT": (0, 1), "ROOM": (0, 2 ** 63), "DECISIONS": (0, 1), "DECISION_BYTES": (1, 2 ** 40),
    "DECISION_DAYS": (1, 100_000), "LEASE": (2, 60), "LOG_TAIL": (0, 10 ** 9), "GROUP_PORT": (1, 65_535),
}
# from how many messages at a time on HAProxy may open more connections than the 64 that a shard serves
MOST_AT_ONCE = 30
# the settings that are a file or a folder, and those of them that may be empty
PLACES = ("PROGRAM", "SOCKETS", "DATA", "BACKUPS", "TOKEN", "HAPROXY_ETC", "HAPROXY_RUN", "AUDIT_RUN", "ARCHIVES",
          "DECISION_LOG", "ETCD_CERTIFICATES", "SERVICES", "SERVICE_FOLDERS")
PLACES_OR_NONE = ("BACKUP_HOOK", "CERTIFICATE")
# numbers that may be left empty
OPTIONAL = ("FIRST_PORT",)
# settings of earlier versions, which set nothing any more
GONE = ("CONNECTIONS", "IDLE", "KEEP", "RETRY")
# the words that a setting may be
CHOICES = {"DECISION_REQUESTS": ("whole", "digest", "none"), "SUPERVISOR": ("systemd", "runit"),
           "ACK": ("all", "local"), "WITHOUT_QUORUM": ("stop", "go-on")}
# the signals to end, as of a terminal that is closed
ENDS = (signal.SIGINT, signal.SIGTERM, signal.SIGHUP)
DOMAIN = re.compile(r"[a-z0-9][a-z0-9-]{0,31}")
# what pdpd takes for a token
TOKEN = re.compile(r"[!-~]{8,64}")
# what the shell would read otherwise than this does, in a value
SHELLS = re.compile(r"[$`;&|<>()\\]|(^|:)~")
# what begins a comment behind a value
BLANK_HASH = re.compile(r"\s#")
# the file in a shard's folder that is there while a backup replaces its files: pdpd-run starts no program beside it
MARK = "put-back-unfinished"
# how long the path of a socket may be (unix(7))
MOST_PATH = 107
# where the tools' lock is: a folder that root alone can write into
LOCKS = pathlib.Path("/run/pdpd")


class Wrong(Exception):
    """What the operator has to mend, in words."""


class BadToken(Wrong):
    """The operator's token isn't there, or is none."""


def words_of(fault):
    """What is told of an error: of one of the system its reason, and the file."""
    reason = getattr(fault, "strerror", None)
    if not reason or isinstance(fault, Wrong):
        return str(fault)
    files = [str(name) for name in (fault.filename, fault.filename2) if name is not None]
    return ": ".join([*files, reason])


def text_of(path):
    """The text of a small file that a person writes, with the ends of its lines as they are."""
    try:
        with open(path, encoding="utf-8", newline="") as file:
            return file.read()
    except UnicodeDecodeError:
        raise Wrong(f"{path} isn't UTF-8: write it anew") from None


def domains_in(body, whose):
    """The names in a reply to the operator's list of domains. Whoever is in the place of a program may write anything
    there, and the names go into commands to HAProxy."""
    with contextlib.suppress(ValueError, RecursionError, TypeError, KeyError):
        names = json.loads(body)["Domain"]
        if isinstance(names, list) and all(isinstance(name, str) and DOMAIN.fullmatch(name) for name in names):
            return names
    raise Wrong(f"{whose} answers with no list of domains: it isn't pdpd, or is damaged")


def harmless(text):
    """A text without what would steer a terminal."""
    return "".join(letter if letter.isprintable() or letter == "\n" else "?" for letter in text)


def errors_of(fault):
    """An error and those behind which it came, the first one first."""
    before = None if fault.__suppress_context__ else fault.__context__
    return [*(errors_of(before) if before else ()), fault]


def lines_of(text, file=FILE):
    """The names and values that lines of a file set."""
    if text.startswith("\ufeff"):
        raise Wrong(f"{file} begins with a byte order mark, which no editor shows: "
                    f"sed -i '1s/^\\xef\\xbb\\xbf//' {file}")
    if "\r" in text:
        raise Wrong(f"{file} has carriage returns, which a shell takes into the values: sed -i 's/\\r//g' {file}")
    for number, line in enumerate(text.split("\n"), 1):
        try:
            words = shlex.split(line, comments=True)
        except ValueError:
            raise Wrong(f"{file}, line {number}: a quote has no end") from None
        if not words:
            continue
        name, is_set, value = words[0].partition("=")
        if len(words) != 1 or not is_set:
            raise Wrong(f"{file}, line {number}: it is no NAME=VALUE (a value with blanks wants quotes)")
        if SHELLS.search(value) or not value.isprintable() or ("#" in BLANK_HASH.split(line)[0]) > ("#" in value):
            raise Wrong(f"{file}, line {number}: {name} may have none of $ ` ; & | < > ( ) \\, nor ~ at its beginning "
                        "or behind a colon, nor # without quotes: a shell reads them otherwise")
        yield name, value


def number_of_setting(name, value, file):
    """The number that a setting is; nothing where it is empty and may be."""
    least, most = NUMBERS[name]
    if name in OPTIONAL and not value:
        return None
    # (with a zero before it a shell takes it for an octal one)
    if not re.fullmatch(r"0|[1-9][0-9]{0,18}", value) or not least <= int(value) <= most:
        raise Wrong(f"{file}: {name} is {value!r}, and no number from {least} to {most}, without a zero before it")
    return int(value)


def refuse_places(values, file):
    """An error where a place isn't named from the root on: each command would look for it in its own folder. Or where
    a shard's folder would have backups, which its user could change, and which a put-back would move aside."""
    for name in (*PLACES, *PLACES_OR_NONE):
        if not values[name].startswith("/") and (values[name] or name in PLACES):
            raise Wrong(f"{file}: {name} is {values[name]!r}, and no path that begins with /")
    first = os.path.relpath(values["BACKUPS"], values["DATA"]).partition("/")[0]
    if first == "." or first.isdecimal():
        raise Wrong(f"{file}: BACKUPS is {values['BACKUPS']}, among the folders of shards: name one of its own")


def number_in_word(word):
    """The number that a word of the command line is, if it is one of up to nine digits."""
    return int(word) if re.fullmatch(r"[0-9]{1,9}", word) else None


# those of the file that is installed, where a setting is left out
DEFAULTS = {"PROGRAM": str(LIBRARY / "pdpd"), **dict(lines_of((LIBRARY / "shards.conf").read_text()))}


class Settings:
    """Each setting by its name in small letters; an error names the file."""

    def __init__(self, text="", file=FILE):
        self.text = text
        given = dict(lines_of(text, file))
        self.gone = [name for name in GONE if given.pop(name, None) is not None]
        values = {**DEFAULTS, **given}
        for name in values.keys() - DEFAULTS.keys():
            raise Wrong(f"{file}: there is no setting {name}")
        refuse_places(values, file)
        for name, value in values.items():
            setattr(self, name.lower(), number_of_setting(name, value, file) if name in NUMBERS else value)
        if not self.supervisor:
            self.supervisor = "systemd" if os.path.isdir("/run/systemd/system") else "runit"
        for name, words in CHOICES.items():
            if (value := getattr(self, name.lower())) not in words:
                raise Wrong(f"{file}: {name} is {value!r}, and none of {', '.join(words)}")
        if self.log_decisions not in ("", "0", "1"):
            raise Wrong(f"{file}: LOG_DECISIONS is {self.log_decisions!r}, and neither 0 nor 1 nor empty")
        # (the journal has no place of its own for them: what is older would go, whatever it is)
        self.log_decisions = self.log_decisions == "1" or (not self.log_decisions and self.supervisor == "runit")
        if len(self.changes(NUMBERS["SHARDS"][1])) > MOST_PATH:
            raise Wrong(f"{file}: SOCKETS is {self.sockets!r}: a socket's path may have {MOST_PATH} bytes")
        self.machines = self.machines_of(file) if self.replicas else {}
        self.groups = self.groups_of(file) if self.all_groups else {}

    def machines_of(self, file):
        """The machines that REPLICAS names; an error where this isn't one of them, or logs no changes."""
        try:
            found = machines_in(self.replicas)
        except ValueError as fault:
            raise Wrong(f"{file}: REPLICAS: {fault}") from None
        if self.self not in found:
            raise Wrong(f"{file}: SELF is {self.self!r}, and none of the machines {', '.join(found)}")
        if not self.audit:
            raise Wrong(f"{file}: REPLICAS wants AUDIT=1")
        return found

    def groups_of(self, file):
        """The groups of machines in ALL_GROUPS; an error where GROUP isn't one, with the machines of REPLICAS."""
        try:
            found = groups_in(self.all_groups)
        except ValueError as fault:
            raise Wrong(f"{file}: ALL_GROUPS: {fault}") from None
        if self.group not in found:
            raise Wrong(f"{file}: GROUP is {self.group!r}, and none of the groups {', '.join(found)}")
        if sorted(found[self.group].values()) != sorted(self.machines.values()):
            raise Wrong(f"{file}: ALL_GROUPS has other addresses of {self.group} than REPLICAS")
        return found

    @property
    def places(self):
        """The folder in which the map of all groups is kept on this machine."""
        return pathlib.Path(self.archives) / "map"

    def folder(self, shard):
        """Where a shard's files are."""
        return pathlib.Path(self.data) / str(shard)

    def refuse_unfinished_put_back(self, shard):
        """An error if a backup was put back in part: what stands there is no store."""
        mark = self.folder(shard) / MARK
        if mark.exists():
            raise Wrong(f"a backup was put back in part ({mark}): give pdpd-shards put-back again")

    def port(self, shard):
        """The port at which a shard listens; nothing where it listens at a socket."""
        return None if self.first_port is None else self.first_port + shard

    def socket(self, shard):
        """Where its socket is."""
        return f"{self.sockets}/{shard}/socket"

    def changes(self, shard):
        """Where it takes changes, if they are logged."""
        return f"{self.sockets}/{shard}/changes"

    def place(self, shard):
        """Where a shard listens, in words."""
        return self.socket(shard) if self.first_port is None else f"127.0.0.1:{self.port(shard)}"

    @property
    def map(self):
        """The file that says which shard has a domain, where that isn't by its name."""
        return pathlib.Path(self.haproxy_etc) / "domains.map"

    def operator(self):
        """The operator's token; an error where no shard would start with it."""
        try:
            with open(self.token, "rb") as lines:
                line = lines.readline(1000).rstrip(b"\n").decode("latin-1")
        except (FileNotFoundError, IsADirectoryError) as fault:
            raise BadToken(f"the operator's token isn't there ({words_of(fault)}): put it back. No shard can be "
                           "started without it; those that run have it") from None
        if not TOKEN.fullmatch(line):
            raise BadToken(f"the first line of {self.token} is no token (8 to 64 visible ASCII characters): mend it. "
                           "No shard can be started with it, so restart none before")
        return line

    def advice(self):
        """What is told of settings that an earlier version had written."""
        if self.gone:
            yield f"{', '.join(self.gone)} of {FILE} set nothing any more: take these lines away"
        if self.maxconn == 1:
            yield f"MAXCONN of {FILE} is 1, so each shard has one message at a time: 8 is usual"
        if self.maxconn > MOST_AT_ONCE:
            yield (f"MAXCONN of {FILE} is {self.maxconn}: HAProxy has some more connections than messages, and of 64 a "
                   "shard ends one for the next, and a message on it is lost: 8 is usual")
        if self.first_port is not None:
            yield (f"FIRST_PORT of {FILE} is set, so every user of this machine can connect to the shards. "
                   "OPERATING.md says under Sockets and ports how they get sockets")

    def refuse_no_program(self):
        """An error where the program can't be run: a shard that is stopped wouldn't start again."""
        if not os.path.isfile(self.program) or not os.access(self.program, os.X_OK):
            raise Wrong(f"{self.program} can't be run: install the archive again, or mend PROGRAM in {FILE}. Restart "
                        "no shard before")

    def shard_in(self, word):
        """The shard that a word of the command line names."""
        shard = number_in_word(word)
        if shard is None or shard >= self.shards:
            raise Wrong(f"there is no shard {word}: they are 0 to {self.shards - 1}")
        return shard


def read():
    """The settings of the file; those of the installed one where it isn't there."""
    return Settings(text_of(FILE) if FILE.exists() else "")


def make_locks_folder():
    """Makes that folder. Users of services have to pass through it, whatever umask root's shell has, and nobody else
    may put anything there."""
    LOCKS.mkdir(mode=0o711, exist_ok=True)
    if LOCKS.stat().st_mode & 0o777 != 0o711:
        LOCKS.chmod(0o711)


@contextlib.contextmanager
def alone():
    """One tool at a time stops, copies or changes shards: another one waits here, and says for whom."""
    make_locks_folder()
    # who can open it can hold it
    file = os.open(LOCKS / "lock", os.O_RDWR | os.O_CREAT | os.O_NOFOLLOW | os.O_CLOEXEC, 0o600)
    with open(file, "r+", encoding="utf-8") as lock:
        try:
            fcntl.flock(lock, fcntl.LOCK_EX | fcntl.LOCK_NB)
        except BlockingIOError:
            print(f"pdpd-shards: waits for {lock.read().strip() or 'another one'}", file=sys.stderr, flush=True)
            fcntl.flock(lock, fcntl.LOCK_EX)
        now = time.strftime("%H:%M:%S UTC", time.gmtime())
        told = f"pdpd-shards {' '.join(sys.argv[1:])} (process {os.getpid()}, since {now})\n"
        os.ftruncate(file, 0)
        with contextlib.suppress(OSError):  # (where its disk is full nobody is told for whom he waits)
            os.pwrite(file, told.encode(errors="replace"), 0)
        yield


def at_work():
    """Which tool stops, copies or changes shards now, as it says itself; nothing where none does."""
    try:
        found = (LOCKS / "lock").stat()
        place = f"{os.major(found.st_dev):02x}:{os.minor(found.st_dev):02x}:{found.st_ino} "
        lines = pathlib.Path("/proc/locks").read_text(encoding="ascii", errors="replace").splitlines()
        if any(" FLOCK " in line and "->" not in line and place in line for line in lines):
            return (LOCKS / "lock").read_text(encoding="utf-8", errors="replace").strip() or "another one"
    except PermissionError:
        return "another one"
    except OSError:
        pass
    return None


def end_in_order():
    """Has a signal to end run what is to be done at the end: messages that are held back go on."""
    for number in ENDS:
        if signal.getsignal(number) is not signal.SIG_IGN:
            signal.signal(number, lambda number, _: sys.exit(128 + number))


@contextlib.contextmanager
def put_off_signals():
    """A signal to end waits meanwhile."""
    before = signal.pthread_sigmask(signal.SIG_BLOCK, ENDS)
    try:
        yield
    finally:
        signal.pthread_sigmask(signal.SIG_SETMASK, before)


def write_whole(path, text, mode=0o644):
    """Puts a file in place of the one that is there, whole or not at all."""
    path = pathlib.Path(path)
    how = {"encoding": "utf-8", "dir": path.parent, "prefix": f".{path.name}.", "delete": False}
    with tempfile.NamedTemporaryFile("w", **how) as file:
        try:
            file.write(text)
            file.flush()
            os.fchmod(file.fileno(), mode)
            os.fsync(file.fileno())
            target = os.readlink(path) if path.is_symlink() else ""
            os.replace(file.name, path)
        except BaseException as fault:
            with contextlib.suppress(FileNotFoundError):
                os.unlink(file.name)
            if isinstance(fault, OSError) and fault.filename is None:
                fault.filename = str(path)  # (a write that fails knows no name)
            raise
    if target:
        print(harmless(f"pdpd-shards: WARNING: {path} was a link to {target}, and is a file now: that one stays as it "
                       "was, and what keeps it, as git, isn't told"), file=sys.stderr, flush=True)


def set_in_text(text, name, value):
    """Settings with another value of one."""
    line = f"{name}={value}"
    changed, count = re.subn(rf"(?m)^{name}=.*$", line, text)
    return changed if count else f"{text}{line}\n"


def set_in_file(name, value):
    """Writes one setting into the file."""
    write_whole(FILE, set_in_text(text_of(FILE) if FILE.exists() else "", name, value))
