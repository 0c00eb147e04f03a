"""Starts the shell of the package beside it, as `redo shell` does (docs/SHELL.md)."""
import sys

if sys.version_info < (3, 9):
    sys.stderr.write("redo: the shell takes Python 3.9 or later\n")
    sys.exit(70)

from redo.shell.main import main  # noqa: E402

sys.exit(main())
