#!/usr/bin/env python3
"""Writes the stored test data again: what each test program of the crates reads, and what the scope document says that it prints; and
the cases that replay_test.py replays, with what it says of each.

    tests/stored.py           writes the files that differ
    tests/stored.py --check   writes nothing, and ends with 1 where a file differs
"""
import argparse
import os
import sys

from expected import ROOT, binaryop, examples, keys, labels, query, read, set_tags, vecop, vectors


def differing():
    """The paths and contents of the files that are not stored as they are worked out."""
    for module in binaryop, examples, keys, labels, query, set_tags, vecop, vectors:
        for path, content in module.FILES.items():
            data = content if isinstance(content, bytes) else content.encode()
            if not os.path.exists(os.path.join(ROOT, path)) or read(path) != data:
                yield path, data


def main():
    parser = argparse.ArgumentParser(description=__doc__, formatter_class=argparse.RawDescriptionHelpFormatter)
    parser.add_argument('--check', action='store_true', help='write nothing; end with 1 where a file differs')
    check = parser.parse_args().check
    found = list(differing())
    for path, data in found:
        if check:
            print(f'{path} is not what tests/expected works out: run tests/stored.py')
            continue
        with open(os.path.join(ROOT, path), 'wb') as file:
            file.write(data)
        print(f'{path} is written')
    sys.exit(1 if check and found else 0)


if __name__ == '__main__':
    main()
