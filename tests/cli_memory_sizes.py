"""65,536 records, 4,096 zones, 1,024 stubs and 100,000 cached names, while allocations are refused. Lines that get no memory have no
effect. `tests/run cli_memory_drawn` refuses more."""

from lib.checks import Checks
from lib.full_books import check_books


def main():
    checks = Checks()
    check_books(checks, 2)
    checks.end()


main()
