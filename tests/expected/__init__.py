"""What each test program is given, and what 01 and 02 say it prints; and the cases of replay_test.py, with what they say of each. Every
module has FILES: contents, by their path in the repository; but allowances, which has calls that two of them share."""
import os

ROOT = os.path.dirname(os.path.dirname(os.path.dirname(os.path.realpath(__file__))))


def read(path):
    """A file of the repository."""
    with open(os.path.join(ROOT, path), 'rb') as file:
        return file.read()
