"""Runs bacsite: as one file, or from the tree by python3 site/bacsite or python3 -m bacsite."""

import signal
import sys

if signal.getsignal(signal.SIGINT) is signal.default_int_handler:
    signal.signal(signal.SIGINT, signal.SIG_DFL)  # ^C while the rest is loaded ends it silently

if not __package__:  # the folder was run: what can be imported is the package, not its parts
    sys.path[0] = sys.path[0] + "/.."

from bacsite.main import run  # noqa: E402  pylint: disable=wrong-import-position

run()
