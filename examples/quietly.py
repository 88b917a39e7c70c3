"""Ends a tool quietly if nobody reads its output any more.

The default of SIGPIPE would do that too, but it would also end a tool whose server closes a connection or a pipe.
"""
import os
import sys


def run(main):
    """Runs a tool and exits with the status that it returns."""
    try:
        try:
            status = main()
        finally:
            sys.stdout.flush()
    except BrokenPipeError:
        # What is left of the output goes nowhere.
        os.dup2(os.open(os.devnull, os.O_WRONLY), sys.stdout.fileno())
        status = 1
    sys.exit(status)
