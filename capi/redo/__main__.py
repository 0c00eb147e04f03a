"""`python3 -m redo DIR`: the shell, docs/SHELL.md."""
import sys

from redo.shell.main import main

sys.exit(main())
