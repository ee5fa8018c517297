#!/usr/bin/env python3
"""Packs what `make dist` does into a package of Debian, build/pdpd_VERSION_amd64.deb: under /usr, with manual pages.

Without more words it takes the program that is proved and built of these very sources. The same files give the same
bytes.
"""
from __future__ import annotations

import gzip
import os
import pathlib
import shutil
import subprocess
import sys
import tempfile

sys.dont_write_bytecode = True
TOP = pathlib.Path(__file__).resolve().parent.parent
sys.path.insert(0, str(TOP / "deploy"))

import dist  # noqa: E402

SCRIPTS = TOP / "deploy" / "debian"
CONFFILES = "/etc/pdpd/shards.conf\n"
SYSUSERS = """\
u pdpd - "pdpd shards" /nonexistent /usr/sbin/nologin
u pdpd-replica - "logs of pdpd shards" /nonexistent /usr/sbin/nologin
"""
# the time that each file of the package has: the first that all tools take (1980)
MOMENT = os.environ.get("SOURCE_DATE_EPOCH", "315532800")
# what a manual page has beside the help text of its command: its summary, and what belongs to it
MANUALS = {
    "pdpd": ("policy administration and decisions (XACML 3.0), over HTTP", ""),
    "pdpd-shards": ("runs several pdpd behind HAProxy", """\
.SH FILES
/etc/pdpd/shards.conf: the settings.
.br
/etc/pdpd/token: the operator's token, for root alone.
.br
/etc/haproxy/haproxy.cfg, domains.lua, domains.map: written for HAProxy.
.br
/var/lib/pdpd/N: what shard N keeps. /var/lib/pdpd\\-backups/N: its backups.
"""),
    "pdpd-log": ("what was changed and decided, and when, of the logs of pdpd shards", """\
.SH FILES
/var/lib/pdpd\\-replica/N: the archive of shard N.
.br
/var/log/pdpd\\-decisions: the lines of decisions.
"""),
    "pdpd-replicas": ("several machines that hold the same, over etcd", """\
.SH FILES
/etc/pdpd/etcd: the certificates by which etcd is spoken to.
.br
/etc/default/etcd: the settings of this machine's member.
"""),
}
COMMANDS = tuple(MANUALS)


def roff(text: str) -> str:
    """A text of a manual page as it stands."""
    lines = text.replace("\\", "\\e").replace("-", "\\-").replace("'", "\\(aq").splitlines()
    return "".join(f"\\&{line}\n" if line.startswith(".") else f"{line}\n" for line in lines)


def manual(name: str, version: str, said: str) -> str:
    """The manual page of a command, of what it says of itself."""
    summary, more = MANUALS[name]
    others = "".join(f".BR {roff(each)[:-1]} (8),\n" for each in COMMANDS if each != name)
    _, _, rest = said.partition("\n\n")
    return (f'.TH {name.upper()} 8 "" "pdpd {version}"\n.SH NAME\n{roff(name)[:-1]} \\- {roff(summary)}'
            f".SH DESCRIPTION\n.nf\n{roff(rest.rstrip())}.fi\n{more}"
            f".SH SEE ALSO\n{others}/usr/share/doc/pdpd/docs/guide/OPERATING.md\n")


def help_of(command: pathlib.Path, *words: str) -> str:
    """What a command says of itself."""
    ran = subprocess.run([command, *words], capture_output=True, text=True, check=False)
    return ran.stdout or ran.stderr


def write(path: pathlib.Path, data: bytes) -> None:
    path.parent.mkdir(parents=True, exist_ok=True)
    path.write_bytes(data)


def lay_out(archive: pathlib.Path, at: pathlib.Path, version: str) -> None:
    """Puts what the package installs below a folder."""
    surroundings = {**os.environ, "DESTDIR": str(at)}
    subprocess.run([archive / "deploy" / "install", "/usr"], env=surroundings, check=True, stdout=subprocess.DEVNULL)
    # a package's units stand there; /etc is the administrator's
    (at / "lib" / "systemd").mkdir(parents=True)
    (at / "etc" / "systemd" / "system").rename(at / "lib" / "systemd" / "system")
    (at / "etc" / "systemd").rmdir()
    write(at / "usr" / "lib" / "sysusers.d" / "pdpd.conf", SYSUSERS.encode())
    for name in COMMANDS:
        said = help_of(at / "usr" / "lib" / "pdpd" / name, "--help")
        page = gzip.compress(manual(name, version, said).encode(), mtime=0)
        write(at / "usr" / "share" / "man" / "man8" / f"{name}.8.gz", page)
    for link in COMMANDS:
        (at / "usr" / "bin" / link).unlink()
        (at / "usr" / "bin" / link).symlink_to(f"../lib/pdpd/{link}")


def describe(at: pathlib.Path, version: str) -> None:
    """Writes what dpkg reads of the package."""
    files = sorted(path for path in at.rglob("*") if path.is_file() and not path.is_symlink())
    size = sum(-(-path.stat().st_size // 1024) for path in files) + sum(path.is_dir() for path in at.rglob("*"))
    control = (SCRIPTS / "control").read_text().replace("@VERSION@", version).replace("@SIZE@", str(size))
    about = at / "DEBIAN"
    write(about / "control", control.encode())
    write(about / "conffiles", CONFFILES.encode())
    names = [path.relative_to(at) for path in files]
    sums = subprocess.run(["md5sum", *names], cwd=at, check=True, capture_output=True)
    write(about / "md5sums", sums.stdout)
    for script in ("postinst", "prerm", "postrm"):
        shutil.copy(SCRIPTS / script, about / script)
        (about / script).chmod(0o755)
    for path in (at, *at.rglob("*")):
        if path.is_dir():
            path.chmod(0o755)
        os.utime(path, (int(MOMENT), int(MOMENT)), follow_symlinks=False)


def package(program: pathlib.Path, line: str, folder: pathlib.Path) -> pathlib.Path:
    """Writes the package into the folder, and gives its path."""
    if shutil.which("dpkg-deb") is None:
        raise SystemExit("deploy/deb.py: missing: dpkg-deb, of Debian's package dpkg")
    os.umask(0o022)
    folder.mkdir(exist_ok=True)
    with tempfile.TemporaryDirectory() as made:
        archive, at = pathlib.Path(made) / "archive", pathlib.Path(made) / "package"
        for file, data, is_run in dist.with_sums(program, line):
            write(archive / file, data)
            (archive / file).chmod(0o755 if is_run else 0o644)
        version = dist.first_line_of(program, "--version").split()[-1]
        at.mkdir()
        lay_out(archive, at, version)
        describe(at, version)
        path = folder / f"pdpd_{version}_amd64.deb"
        words = ["dpkg-deb", "--root-owner-group", "-Zgzip", "--build", at, path]
        subprocess.run(words, env={**os.environ, "SOURCE_DATE_EPOCH": MOMENT}, check=True, stdout=subprocess.DEVNULL)
    dist.tell(path)
    return path


def main() -> int:
    given = dist.words_of(__doc__).parse_args()
    package(*dist.program_of(given.program), given.to)
    return 0


if __name__ == "__main__":
    sys.exit(main())
