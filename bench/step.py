#!/usr/bin/env python3
"""A naive stepper, apart from the program: the planes that examples/ and tests/ claim come from it, and not from cafile.

python3 bench/step.py FILE N prints, in RLE, the pattern of FILE after N generations. Its rule is in the form B3/S23, over the Moore, von Neumann
(suffix V) or hexagonal (suffix H) neighbourhood, or in the form 345/2/4 of Generations. With --rule RULEFILE behind these words the rule is that file's
table.
"""
import sys

from naive import cells_and_rule, read_table, rule_of, steps, tidy


def main():
    path, generations, *more = sys.argv[1:]
    with open(path, encoding="latin-1") as file:
        cells, rule_text = cells_and_rule(file.read())
    if more:
        with open(more[1], encoding="latin-1", newline="") as file:
            rule = read_table(file.read())
    else:
        rule = rule_of(rule_text)
    sys.stdout.buffer.write(tidy(steps(cells, rule, int(generations)), rule.name, 0, rule.states))


if __name__ == "__main__":
    main()
