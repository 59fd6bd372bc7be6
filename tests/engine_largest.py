"""The same as `engine_large`, with a cache of a million names, which is full. It takes half a minute."""

# By its whole name alone.

from lib.checks import Checks
from lib.largest import CELLS, check_largest


def main():
    checks = Checks()
    check_largest(checks, CELLS)
    checks.end()


main()
