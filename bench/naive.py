"""The naive steppers of tests/lib/, its rule tables and its RLE texts, for the scripts of bench/."""
import os
import sys

sys.path.append(os.path.join(os.path.dirname(os.path.dirname(os.path.abspath(__file__))), "tests"))

from lib.rle import cells_and_rule, folded, items_of, tidy  # noqa: E402,F401
from lib.rule_table import read_table  # noqa: E402,F401
from lib.steps import rule_of, steps  # noqa: E402,F401
