"""The program: runs the command in its words, and exits with its status."""

from __future__ import annotations

import os
import sys
from contextlib import suppress

from .parsing import parser_of
from .streams import BROKEN, Failure, clean, put, show

UNKNOWN = 3  # to monitoring


def main() -> int:
    """The status of the program. A check that fails is UNKNOWN, whatever fails."""
    given = sys.argv[1:]
    checks = given[:1] == ["check"]
    try:
        if sys.stdout is None:
            raise Failure("writing failed", BROKEN)
        words = parser_of(given).parsed(given)
        status: int = words.work(words)
        fault = words.journal.fault if "journal" in words else ""
        if fault:
            show(f"bacsite: {clean(fault)}\n")
        return BROKEN if fault and not (checks and status) else status
    except SystemExit:  # help or the version was asked for
        return UNKNOWN if checks else 0
    except Failure as failure:
        text, status = str(failure), failure.status
    except Exception as error:  # a fault of this program  pylint: disable=broad-except
        text, status = repr(error), BROKEN
        if os.environ.get("BACSITE_DEBUG") == "1":
            import traceback  # pylint: disable=import-outside-toplevel

            show(traceback.format_exc())
    if checks:
        with suppress(Failure):
            put("BACNET UNKNOWN - " + text.replace("|", "/") + "\n")
            return UNKNOWN
        status = UNKNOWN
    if text:
        show(f"bacsite: {text}\n")
    return status


def run() -> None:
    """Exits with the status of the program; the one file built from the package calls this."""
    sys.exit(main())
