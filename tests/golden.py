#!/usr/bin/env -S python3 -B
"""The golden runs: each case of tests/golden/COMMAND/ is run, and has to come to what its files say (tests/lib/golden.py)."""
from lib import golden
from lib.program import Tally


def main():
    tally = Tally()
    for case in golden.cases():
        tally.expect(case, golden.outcome_of_run(case), golden.outcome(case))
    tally.finish()


if __name__ == "__main__":
    main()
