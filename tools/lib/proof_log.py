"""What the log of `rt all check` says of each crate."""
import re

PROVED = re.compile(r'^crate ((?:xl|test)_\w+): .*\n((?:axioms .*\n)*)logic=proved functions=([0-9]+) ', re.M)


def proofs_in(log):
    """For each crate how many functions were proved, and the lines of what they stand on without a proof."""
    return {name: (int(count), axioms.splitlines()) for name, axioms, count in PROVED.findall(log)}
