"""By how much two quorums together are more than what they must exceed, as `xl lists` says it."""
import itertools

import command
import schedules


def asked(program, liars, lists):
    """The slack of each two of these lists, and of each with itself, by their places: each is that of a node of its own."""
    numbers = [it for it in schedules.NUMBERS if it not in liars][: len(lists)]
    lines = ['xl-schedule 1', *('liar %d' % it for it in liars)]
    lines += ['node %d %d %s' % (number, quorum, ','.join(map(str, members))) for number, (quorum, members) in zip(numbers, lists)]
    report = schedules.run_replay(program, '\n'.join([*lines, '']), command='lists')
    schedules.stop_on_problem(program, report)
    places, found = {number: place for place, number in enumerate(numbers)}, {}
    for word, one, other, _, _, total, bound, *_ in (it for it in report.outcomes if it[0] == 'pair'):
        found[places[int(one)], places[int(other)]] = int(total) - int(bound)
    if len(found) != len(lists) * (len(lists) + 1) // 2:
        command.stop('%s lists doesn\'t say what each two lists have in common' % program)
    return found


def between(program, liars, lists):
    """The slack of each two of these lists, of which there may be more than numbers for nodes."""
    room, found = len(schedules.NUMBERS) - len(liars), {}
    if len(lists) > room == 1:
        command.stop('so many liars leave no number for two lists, so there is no slack of them')
    size = room if len(lists) <= room else room // 2
    parts = [lists[at : at + size] for at in range(0, len(lists), size)]
    for one, other in itertools.combinations_with_replacement(parts, 2):
        both = one if one is other else one + other
        for (first, second), slack in asked(program, liars, both).items():
            found[both[first], both[second]] = found[both[second], both[first]] = slack
    return found


def slacks(program, network):
    """The least slack of each two nodes, and of each with itself, over all lists that they ever had."""
    of = {number: [(quorum, tuple(members)) for quorum, members in lists] for number, lists in network.lists.items()}
    found = between(program, network.liars, sorted({it for lists in of.values() for it in lists}))
    return {
        (one, other): min(found[ours, theirs] for ours in of[one] for theirs in of[other]) for one in of for other in of
    }
