"""What each command may write, as regular expressions over bytes. docs/FORMATS.md says what the lines mean."""
import re

from xl_report import (
    ANSWER,
    AUDITED,
    BAD_LINE,
    BLAMED,
    BLAMED_FORK,
    CLEAR,
    FLAG,
    FLAGS_END,
    FORGED,
    FORMS,
    FRAME,
    GIVEN,
    JOURNAL_LINE,
    JUDGED,
    MERGED,
    MIXED,
    OUTCOME,
    PAIR,
    PAPER,
    REPORT,
    SETTINGS,
    SHORT,
    SHOW_END,
    TWICE,
    VERDICT,
    WHOLE,
    matches,
)

LINE = {
    'replay': '|'.join((OUTCOME, SHORT, FORGED, VERDICT, BAD_LINE)),
    'lists': '|'.join((PAIR, PAPER, BAD_LINE)),
    'show': '|'.join((FRAME, SHOW_END)),
    'node': '|'.join((REPORT, JOURNAL_LINE, SETTINGS)),
    'merge': '|'.join((MERGED, BAD_LINE)),
    'flags': '|'.join((FLAG, FLAGS_END, BAD_LINE)),
    'audit': '|'.join((AUDITED, BAD_LINE)),
    'blame': '|'.join((JUDGED, MIXED, BLAMED_FORK, TWICE, ANSWER, GIVEN, CLEAR, BLAMED, AUDITED, BAD_LINE)),
}
# what `negative` writes is no report: lines of a schedule, and behind them `list` lines
WRITTEN = '(?:[^\n]*\n)'
SCHEDULES = {('negative', 0): WRITTEN + '*', ('negative', 3): WRITTEN + '*' + BAD_LINE}
SAID = {8: b'xl: network failed\n', 9: b'xl: store full\n'}
ENDS = {('replay', 1): b'fork ', ('replay', 0): b'agree', ('show', 0): b'frames ', ('show', 3): b'bad '}
ENDS.update({('audit', 0): b'yes ', ('audit', 1): b'no ', ('audit', 3): b'bad '})
ENDS.update({('blame', 0): b'clear', ('blame', 1): b'blame ', ('blame', 3): b'bad '})


def why_strange(command, status, text):
    """What of the text isn't of the command's forms, or None. The status is one that the command has."""
    last = text[:-1].rpartition(b'\n')[2]
    form = WHOLE.get((command, status)) or SCHEDULES[command, status]
    if matches(form, text) and last.startswith(ENDS.get((command, status), b'')):
        return None
    for number, line in enumerate(re.findall(b'[^\n]*\n|[^\n]+', text), 1):
        if not matches(LINE.get(command, WRITTEN), line):
            return 'line %d of the output has no known form: %r' % (number, line[:200])
    return 'the lines of the output don\'t stand as they may with status %d' % status

