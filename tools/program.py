"""Where the program is, for the tools that call it."""

import os
from pathlib import Path

RUN = Path(__file__).resolve().parent.parent / "run"


def program():
    """The command that runs tapebox: the one that TAPEBOX names, the one that ./run finds, or else the installed one."""
    return os.environ.get("TAPEBOX") or (str(RUN) if RUN.exists() else "tapebox")
