#!/usr/bin/env python3
"""run_cases.py: runs all cases, and names at the end each that was skipped, and why, and which programs were drafts.

The programs are those that ./run takes: the proved ones, or drafts, which it compiles here if there are none of this tree. Cases of a
program that is only built with its proofs are skipped if the programs are drafts.

Statuses: 0 if none fails; 1 if one does, or a program does not compile; 2 if there are words.
"""

import argparse
import sys
import unittest
from pathlib import Path

import folders  # noqa: F401
from support import locate_all


def main():
    argparse.ArgumentParser(description=__doc__, formatter_class=argparse.RawDescriptionHelpFormatter).parse_args()
    cases = unittest.defaultTestLoader.discover(str(Path(__file__).resolve().parent))
    try:
        drafts = locate_all()
    except RuntimeError as fault:
        print(f"ci: {fault}", file=sys.stderr)
        return 1
    result = unittest.TextTestRunner(verbosity=2).run(cases)
    for case, reason in result.skipped:
        print(f"ci: skipped: {case.id()}: {reason}", file=sys.stderr)
    if drafts:
        print(f"ci: not proved, but drafts: {', '.join(drafts)}", file=sys.stderr)
    return 0 if result.wasSuccessful() else 1


if __name__ == "__main__":
    sys.exit(main())
