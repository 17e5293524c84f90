"""What the scripts of vectors/ do with the files that they make: write them, or with --check compare them."""
import os
import sys

ROOT = os.path.dirname(os.path.dirname(os.path.abspath(__file__)))


def read(path):
    if not os.path.exists(path):
        return None
    with open(path, 'rb') as file:
        return file.read()


def write_or_compare(usage, arguments, files):
    """files: the octets of each, by its path from the root. The number of those that differ."""
    if arguments not in ([], ['--check']):
        sys.exit(usage)
    differing = 0
    for name, octets in files.items():
        path = os.path.join(ROOT, name)
        if not arguments:
            with open(path, 'wb') as file:
                file.write(octets)
        elif read(path) != octets:
            print(name + ' differs')
            differing += 1
    return differing
