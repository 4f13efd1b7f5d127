#!/usr/bin/env python3
"""Marks the libraries that the gate has just built from this tree, so that what stands on them is built without proving them again: mark_built.py

The gate leaves its libraries without the kit's mark, since each holds statements that fit only the others of the same run. Here nothing was
built since. Statuses: 0; 1 if a library is not there, or a file of its crate is newer; 2 for bad words, or a kit whose rt can't be driven so.
"""

import argparse
import os
import sys
from pathlib import Path

ROOT = Path(__file__).resolve().parent.parent
sys.dont_write_bytecode = True
sys.path.insert(0, str(ROOT / "dev"))

import edits


def is_built_since(crate):
    """Whether a crate's library is there, and no file of the crate was written after it."""
    files = [path for part in ("src", "specs", "proofs") for path in Path(crate.folder, part).rglob("*") if path.is_file()]
    return os.path.isdir(crate.rlib) and all(path.stat().st_mtime <= os.stat(crate.rlib).st_mtime for path in files)


def main():
    parser = argparse.ArgumentParser(description=__doc__, formatter_class=argparse.RawDescriptionHelpFormatter)
    parser.parse_args()
    kit = edits.kit_module()
    if not kit:
        parser.error("this kit's rt can't be driven so")
    libraries = [crate for crate in kit.rtlib.crates_below(str(ROOT)) if crate.makes_rlib()]
    lacking = [crate.name for crate in libraries if not is_built_since(crate)]
    if lacking:
        print(f"mark_built: not built from these files: {' '.join(lacking)}", file=sys.stderr)
        return 1
    for crate in libraries:
        Path(crate.folder, "out", "rlib", "stamp").write_text(crate.stamp(), encoding="utf-8")
    return 0


if __name__ == "__main__":
    sys.exit(main())
