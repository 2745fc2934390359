#!/usr/bin/env python3
"""What is expected of a schedule's replay, in NAME.expect beside NAME.xl, and results as JUnit reads them.

tools/check runs this; docs/FORMATS.md has the lines. The words are the path of the .expect, of the report, and the status;
standard output then has each expectation that isn't met. With --junit FILE it writes there what standard input says: for
each story its path, its milliseconds and why it failed, each ended by a zero byte."""
import re
import sys
import xml.etree.ElementTree as tree

REFUSED = 3
NO_XML = re.compile('[^\t\n\x20-\ud7ff\ue000-\ufffd]')


def matches(wanted, words):
    """Whether a line of the report is the wanted one, in which * stands for any word."""
    return len(wanted) == len(words) and all(it in ('*', word) for it, word in zip(wanted, words))


def unmet(line, report, status):
    """Why the expectation isn't met, or None."""
    tokens = line.split()
    if tokens[0] == 'status':
        if len(tokens) != 2 or not tokens[1].isdigit():
            return 'a status is a number'
        return None if int(tokens[1]) == status else 'the status is %d' % status
    never = tokens[0] == 'never'
    wanted = tokens[never:]
    if not wanted:
        return 'a line of a report lacks'
    found = next((it for it in report if matches(wanted, it)), None)
    if never:
        return None if found is None else 'it says: ' + ' '.join(found)
    return None if found is not None else near(wanted, report)


def near(wanted, report):
    """What the report has in place of the wanted line: those of its word that share the most words with it."""
    same = [it for it in report if it[0] == wanted[0]]
    best = max(same, key=lambda it: sum(a in ('*', b) for a, b in zip(wanted, it)), default=None)
    return 'it says: ' + ' '.join(best) if best else 'it has no line “%s”' % wanted[0]


def judged(path, report, status):
    """Each expectation that isn't met: the path, the line, what it says, and why not."""
    with open(path, encoding='utf-8', errors='replace') as file:
        lines = [it.strip() for it in file]
    with open(report, encoding='utf-8', errors='replace') as file:
        said = [it.split() for it in file if it.strip()]
    expected = [(number, it) for number, it in enumerate(lines, 1) if it and not it.startswith('#')]
    for number, line in expected:
        why = unmet(line, said, status)
        if why:
            yield '%s:%d: expected “%s”, and %s' % (path, number, line, why)
    if not any(it.split()[0] == 'status' for _, it in expected) and status not in (0, 1):
        yield '%s: the status is %d, of which it says nothing' % (path, status)


def junit(results):
    """The results of stories as JUnit's XML."""
    parts = results.split('\0')[:-1]
    stories = list(zip(parts[::3], parts[1::3], parts[2::3]))
    failed = sum(bool(why) for _, _, why in stories)
    whole = sum(int(it) for _, it, _ in stories) / 1000
    suite = tree.Element('testsuite', name='xl', tests=str(len(stories)), failures=str(failed), time='%.3f' % whole)
    for path, milliseconds, why in stories:
        case = tree.SubElement(suite, 'testcase', classname='schedules', name=NO_XML.sub('?', path), time='%.3f' % (int(milliseconds) / 1000))
        if why:
            said = NO_XML.sub('?', why.strip())
            tree.SubElement(case, 'failure', message=said.splitlines()[0]).text = said
    tree.indent(suite)
    return '<?xml version="1.0" encoding="UTF-8"?>\n%s\n' % tree.tostring(suite, encoding='unicode')


def main(words):
    if words[:1] == ['--junit']:
        text = junit(sys.stdin.buffer.read().decode('utf-8', 'replace'))
        with open(words[1], 'w', encoding='utf-8') as file:
            file.write(text)
        return 0
    path, report, status = words
    found = list(judged(path, report, int(status)))
    sys.stdout.buffer.write(''.join(it + '\n' for it in found).encode())
    return 1 if found else 0


if __name__ == '__main__':
    try:
        sys.exit(main(sys.argv[1:]))
    except OSError as error:
        print('check: %s: %s' % (error.filename, error.strerror), file=sys.stderr)
        sys.exit(2)
