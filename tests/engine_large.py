"""Tables of 4,096 zones, 65,536 records and 1,024 stubs of 8 addresses, 256 commands, lines of 1,024 octets, messages of 65,535 octets,
and 16 workers that share a book, in one program that has memory. `tests/run engine_largest` has a million cached names besides."""

from lib.checks import Checks
from lib.largest import check_largest


def main():
    checks = Checks()
    check_largest(checks, 60_000)
    checks.end()


main()
