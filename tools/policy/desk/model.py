"""The model in Python (tests/model), as far as the desk uses it, and the client for applications (clients/python):
their modules, under their own names. In the file that `tools/policy/pack.py` makes they stand beside the desk's own."""
import pathlib
import sys

HOME = pathlib.Path(__file__).resolve().parents[1]
# whether the desk is one file, outside a clone
IS_PACKED = HOME.is_file()
TOP = HOME.parents[1]
sys.path.insert(1, str(HOME / "model" if IS_PACKED else TOP / "tests" / "model"))
sys.path.insert(2, str(HOME / "client" if IS_PACKED else TOP / "clients" / "python"))
# a text of very many digits is out of range, and nothing that Python refuses to read
getattr(sys, "set_int_max_str_digits", lambda _: None)(0)

import combining  # noqa: E402, F401
import contexts  # noqa: E402, F401
import decisions  # noqa: E402, F401
import documents  # noqa: E402, F401
import expressions  # noqa: E402, F401
import functions  # noqa: E402, F401
import identifiers  # noqa: E402, F401
import inputs  # noqa: E402, F401
import json_texts  # noqa: E402, F401
import linking  # noqa: E402, F401
import pdp_client  # noqa: E402, F401
import policies  # noqa: E402, F401
import requests  # noqa: E402, F401
import responses  # noqa: E402, F401
import route_bodies  # noqa: E402, F401
import rows  # noqa: E402, F401
import values  # noqa: E402, F401
import versions  # noqa: E402, F401
