"""Runs a tool so that its output comes whole, or a sentence and the program's status for it, 5, where it can't be written."""

import os
import sys

NOT_WRITTEN = 5


def run(main):
    """Ends with what main returns. Letters that the output's encoding lacks are written as their numbers."""
    for stream in (sys.stdout, sys.stderr):
        stream.reconfigure(errors="backslashreplace")
    try:
        try:
            status = main()
        finally:
            sys.stdout.flush()
    except OSError as fault:
        os.dup2(os.open(os.devnull, os.O_WRONLY), sys.stdout.fileno())  # else what is left is tried once more at the end
        print(f"{fault.filename or 'the output'}: {fault.strerror}", file=sys.stderr)
        status = 1 if fault.filename else NOT_WRITTEN
    sys.exit(status)
