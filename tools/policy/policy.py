#!/usr/bin/env python3
"""A policy author's desk: `policy --help` lists its words, and tools/policy/README.md explains them."""
import pathlib
import sys

TOOL = pathlib.Path(__file__).resolve().parent
# what Python compiles stays out of the tree
sys.pycache_prefix = str(TOOL.parents[1] / "build" / "pycache")
sys.dont_write_bytecode = False
sys.path.insert(0, str(TOOL))

from desk.cli import main  # noqa: E402

if __name__ == "__main__":
    sys.exit(main())
