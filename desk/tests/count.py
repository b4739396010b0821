"""Runs every test beside this file. What fails is told, what could not be run is told loudly; the last line counts."""

import os
import sys
import unittest

HERE = os.path.dirname(os.path.abspath(__file__))


def main():
    sys.dont_write_bytecode = True
    sys.path.insert(0, os.path.dirname(HERE))
    tests = unittest.defaultTestLoader.discover(HERE)
    result = unittest.TextTestRunner(stream=sys.stdout, verbosity=1, buffer=False).run(tests)
    for test, why in result.skipped:
        print(f'NOT RUN: {test.id()}: {why}')
    # A test may fail in many of its parts, and counts once.
    failed = {getattr(test, 'test_case', test).id() for test, _ in result.failures + result.errors}
    failed |= {test.id() for test in result.unexpectedSuccesses}
    passed = result.testsRun - len(failed) - len(result.skipped)
    print(f'{max(0, passed)} passed, {len(failed)} failed')
    return 1 if failed else 0


if __name__ == '__main__':
    sys.exit(main())
