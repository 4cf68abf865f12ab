"""The client against the program: PERITEXT=PROGRAM python3 clients/python/tests/run.py"""

import os
import sys
import unittest

HERE = os.path.dirname(os.path.abspath(__file__))
sys.path.insert(0, os.path.join(HERE, "..", "src"))

if __name__ == "__main__":
    names = ["cuts", "limits", "files", "actions", "places", "placed", "found", "counted", "past", "changes", "daemons", "slow", "revs", "again", "watches", "watched", "follows", "followers", "kills", "loops", "cancels", "typed", "programs"]
    tests = unittest.defaultTestLoader.loadTestsFromNames(names)
    sys.exit(not unittest.TextTestRunner().run(tests).wasSuccessful())
