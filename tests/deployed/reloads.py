"""HAProxy reads its configuration again, with other addresses, or with letters beyond ASCII."""
import re

from .clients import once, status
from .machine import SETTINGS, shards
from .units import made_with


def reloaded(machine, checks):
    """Clients are answered behind each reload, also where HAProxy listens at one address of IPv6, and where it takes
    all addresses in place of one."""
    ask = machine.operator.makes("six")
    for setting in ("METRICS=[::1]:405", "TLS_BIND=[::1]:443", "TLS_BIND=[::1]:443,127.0.0.1:443"):
        name, value = setting.split("=")
        before = re.search(rf"(?m)^{name}=(.*)$", SETTINGS.read_text())[1].strip('"')
        machine.set(**{name: value})
        for number in range(2):
            shards("reload")
            checks.expect(f"{setting}, behind reload {number}", status(once(ask)), 200)
        machine.set(**{name: before})
        checks.expect(f"{name}={before} behind it", status(once(ask)), 200)


def beyond_ascii(machine, checks):
    """What a tool writes is UTF-8, however root's shell has letters."""
    own, written = (machine.folder / "settings" / name for name in ("pdpd-own.cfg", "haproxy.cfg"))
    own.write_text("# clés\n", encoding="utf-8")
    found, said = made_with(machine.folder, "", LC_ALL="C", PYTHONCOERCECLOCALE="0", PYTHONUTF8="0")
    is_there = written.exists() and "# clés\n" in written.read_text(encoding="utf-8")
    checks.expect(f"a letter beyond ASCII: {said}", (found, is_there), (0, True))
    own.unlink()
