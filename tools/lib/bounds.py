"""The arithmetic of the headline, and of a paper's condition, for two lists of any size.

It is no rule of the protocol: no node works it out, and what a tool shows of a run doesn't rest on it. Of a schedule's
lists, which have 64 numbers together, `xl lists` says the same, and tests hold these sums to that."""


def slack(quorums, sizes, shared, liars=0):
    """Both quorums together, less what they must exceed: both sizes together, less the shared members, and the liars there."""
    return quorums - (sizes - shared + liars)


def last_short(size, quorum, liars):
    """The greatest overlap with which two lists of this size and quorum are short, with so many liars in it."""
    return -slack(2 * quorum, 2 * size, 0, liars)


def meets_paper(size, spare, shared, liars=0):
    """The condition for a node whose list bears `spare` silent members, beside one with a list of this size."""
    return 2 * shared > size + 2 * (spare + liars)
