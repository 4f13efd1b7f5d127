"""Cases of the built programs, by subject."""

import folders  # noqa: F401
