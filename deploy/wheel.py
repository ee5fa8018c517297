"""The client for Python (clients/python) as a wheel, which pip installs: Python's Binary Distribution Format."""
import base64
import hashlib
import io
import pathlib
import zipfile

FOLDER = pathlib.Path(__file__).resolve().parent.parent / "clients" / "python"
MODULES = ("pdp_client.py", "pdp_guards.py")
NAME = "pdp_client"


def wheel_name(version):
    return f"{NAME}-{version}-py3-none-any.whl"


def sum_of(data):
    """The SHA-256 of a file, as a record of a wheel has it."""
    return base64.urlsafe_b64encode(hashlib.sha256(data).digest()).decode().rstrip("=")


def wheel(version):
    """The bytes of the wheel: always the same of the same files."""
    about = f"{NAME}-{version}.dist-info"
    held = {name: (FOLDER / name).read_bytes() for name in MODULES}
    held[f"{about}/METADATA"] = (f"Metadata-Version: 2.1\nName: {NAME.replace('_', '-')}\nVersion: {version}\n"
                                 "Summary: A client of Dalvezour, and guards for web applications\n"
                                 "Requires-Python: >=3.9\n").encode()
    held[f"{about}/WHEEL"] = b"Wheel-Version: 1.0\nGenerator: dalvezour\nRoot-Is-Purelib: true\nTag: py3-none-any\n"
    record = "".join(f"{name},sha256={sum_of(data)},{len(data)}\n" for name, data in held.items())
    held[f"{about}/RECORD"] = f"{record}{about}/RECORD,,\n".encode()
    out = io.BytesIO()
    with zipfile.ZipFile(out, "w", zipfile.ZIP_DEFLATED) as archive:
        for name, data in held.items():
            entry = zipfile.ZipInfo(name)  # of 1980
            entry.external_attr, entry.compress_type = 0o644 << 16, zipfile.ZIP_DEFLATED
            archive.writestr(entry, data)
    return out.getvalue()
