"""Runs every test of the desk. The last line is 'N passed, 0 failed', or 'N passed, M failed' with status 1; each case of a table counts."""
import os
import sys
import unittest


class Counted(unittest.TextTestResult):
    parts = bad = 0

    def addSubTest(self, test, subtest, err):
        super().addSubTest(test, subtest, err)
        self.parts += err is None
        self.bad += err is not None

    def addSuccess(self, test):
        super().addSuccess(test)
        self.parts += 1


here = os.path.dirname(os.path.realpath(__file__))
tests = unittest.defaultTestLoader.discover(here, pattern='test_*.py', top_level_dir=os.path.dirname(os.path.dirname(here)))
result = unittest.TextTestRunner(resultclass=Counted, verbosity=0).run(tests)
failed = len(result.failures) + len(result.errors) + len(result.unexpectedSuccesses) + len(result.skipped)
print(f'{result.parts} passed, {failed} failed', flush=True)
sys.exit(1 if failed or not result.parts else 0)
