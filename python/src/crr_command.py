"""The installed command `crr`. It is no part of the package, whose imports take a tenth of a second: Ctrl-C
ends it without a traceback then too."""

import sys


def main() -> int:
    """Runs the command and gives its exit status."""
    try:
        from crr.cli import main as run

        return run()
    except KeyboardInterrupt:  # before run, which says so itself
        print("crr: interrupted", file=sys.stderr)
        return 130
