"""What the commands here share in reading their words."""
from __future__ import annotations

import argparse
import signal


def positive(word: str) -> int:
    """A number from 1 to 999,999."""
    if not (word.isascii() and word.isdigit() and len(word) <= 6 and int(word) > 0):
        raise argparse.ArgumentTypeError(f"{word!r} is no number from 1 to 999999")
    return int(word)


def leave_at_a_closed_pipe() -> None:
    """Lets the command end without a word where nobody reads on, as others do."""
    if hasattr(signal, "SIGPIPE"):
        signal.signal(signal.SIGPIPE, signal.SIG_DFL)
