"""Runs all tests: `PYTHONPATH=python python3 -m tests` in the folder python. Says what was passed over and why; the last line is
`N passed, M failed`."""

import sys
import unittest
from pathlib import Path


def main() -> int:
    """The exit status."""
    folder = Path(__file__).resolve().parent
    tests = unittest.TestLoader().discover(str(folder), top_level_dir=str(folder.parent))
    result = unittest.TextTestRunner(stream=sys.stdout).run(tests)
    for test, reason in result.skipped:
        print(f"passed over: {test}: {reason}")
    failed = len(result.failures) + len(result.errors)
    print(f"{result.testsRun - failed - len(result.skipped)} passed, {failed} failed")
    return int(failed > 0)


if __name__ == "__main__":
    sys.exit(main())
