"""A shell for people over the store of this process: `redo shell [DIR]` (docs/SHELL.md).

    main        words of the command, statuses, lines from a pipe
    terminal    the prompt: lines that are edited and completed, colours, Ctrl-C
    session     a store that is open, what is done to it, and how it is left
    words       lines that begin with a dot
    lines       the lines of a script, as calls of the library
    transfer    files that are exported and imported
    explain     why a line was refused
    reading     fields of a line, and what each has to be
    forms       the forms of all lines, the one table of them
    answers     what is answered, as a table, JSON, CSV, or as `redo run` does
    notation    how bytes are written
"""
