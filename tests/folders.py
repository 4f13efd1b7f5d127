"""Makes the modules importable that the cases and the scripts share: those of plain/ and support/, of tools/
and dev/, and of this folder."""

import sys
from pathlib import Path

TESTS = Path(__file__).resolve().parent
ROOT = TESTS.parent

sys.dont_write_bytecode = True
for folder in [TESTS, TESTS / "plain", TESTS / "support", ROOT / "tools", ROOT / "dev"]:
    if str(folder) not in sys.path:
        sys.path.insert(0, str(folder))
