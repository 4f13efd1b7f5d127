"""Journals as the built program finds them, as a player of rows takes them. Tapes and bytes are those of `plain_feed`."""

from plain_feed import Tape, decode, encode, journal  # noqa: F401
from support import desk


def verify(data):
    """What `tapebox verify` finds of a journal's bytes, or says of them."""
    ended = desk("verify", given=data)
    return (ended.written or ended.said).decode().removeprefix("tapebox: ").strip()
