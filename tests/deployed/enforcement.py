"""What asks from applications and before servers (clients/), from the archive, with every program that it wants."""
import subprocess
import sys

from .machine import LIBRARY, TOP


def clients(machine, checks):
    """The archive has all of clients/ as the repository has it, and the wheel; tests/client.py passes, none of whose
    parts may be left out."""
    folder = next(path for path in machine.folder.glob("pdpd-*") if path.is_dir())
    held = {str(path.relative_to(TOP)): path for path in sorted((TOP / "clients").rglob("*"))
            if path.is_file() and "cache" not in str(path)}
    checks.expect("the archive has the very clients",
                  {name: (folder / name).read_bytes() == path.read_bytes() for name, path in held.items()},
                  dict.fromkeys(held, True))
    checks.expect("those that are run can be", [name for name, path in held.items() if path.stat().st_mode & 0o100
                                                and not (folder / name).stat().st_mode & 0o100], [])
    checks.expect("and a wheel", len(list(folder.glob("clients/python/pdp_client-*-py3-none-any.whl"))), 1)
    ran = subprocess.run([sys.executable, TOP / "tests" / "client.py", "--whole", LIBRARY / "pdpd"], text=True,
                         capture_output=True, stdin=subprocess.DEVNULL, check=False)
    checks.expect(f"tests/client.py --whole\n{ran.stdout}{ran.stderr}", ran.returncode, 0)
