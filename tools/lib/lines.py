"""What a line of a schedule says, in words, by itself: what comes of it a replay says."""
import refusals
import schedules
import words

SAID = {
    'xl-schedule': 'A schedule begins so.',
    'node NODE QUORUM LIST': 'Node {0} trusts {2}; {1} of these are its quorum.',
    'node NODE QUORUM LIST observing': 'Node {0} trusts {2}; {1} of these are its quorum. It observes, and proposes nothing.',
    'liar NODE': '{0} is a liar, which has no node.',
    'limit LEDGERS': 'Each node may know {0} ledgers, the root among them.',
    'speak VERSION': 'The nodes send validations of version {0}.',
    'at MS': 'From here on it is {0}.',
    'name NAME ID': 'From here on the name {0} stands for the id {1}.',
    'ledger NAME PARENT CLOSE': '{0} names the ledger that follows {1} and closes in second {2}.',
    'issue NODE SEQ ID full|partial': 'Node {0} says that {2} is the ledger of sequence {1}, in a validation that is {3}.',
    'submit NODE ID': 'The transaction {1} is submitted at node {0}.',
    'timer NODE': 'A timer comes to node {0}.',
    'timers': 'A timer comes to each node, by rising number.',
    'deliver FRAME': 'Sent frame {0} is handed to its receiver.',
    'all': 'All frames that were sent since the last `all` or `drop` arrive, in order.',
    'drop': 'All frames that were sent since the last `all` or `drop` are left out.',
    'greet NODE PEER': 'Node {0} greets {1} with the headers of its chain.',
    'list NODE QUORUM LIST': 'From here on node {0} trusts {2}; {1} of these are its quorum.',
    'restart NODE': 'Node {0} is opened anew with the number that its keeper holds.',
    'prefer NODE': 'It is printed which ledger node {0} prefers.',
    'heard NODE': 'It is printed what node {0} heard that each member last reported.',
    'raw NODE DIGITS': 'These bytes are handed to node {0}.',
    'lie LIAR NODE proposal ID ID PSEQ CLOSE TIME': 'Liar {0} proposes to node {1} alone: on {2}, the set {3}, as its position {4}.',
    'lie LIAR NODE validation SEQ ID SECOND full|partial': 'Liar {0} tells node {1} alone that {3} is the ledger of sequence {2}, signed in second {4}, {5}.',
    'lie LIAR NODE validation SEQ ID SECOND full|partial ID': 'Liar {0} tells node {1} alone that {3} is the ledger of sequence {2}, signed in second {4}, {5}, and that it last reported {6}.',
    'lie LIAR NODE header LEDGER': 'Liar {0} shows node {1} alone the header of {2}.',
    'lie LIAR NODE set IDS': 'Liar {0} shows node {1} alone a set of transactions: {2}.',
    'lie LIAR NODE tx ID': 'Liar {0} shows node {1} alone the transaction {2}.',
}
TORN = {
    'cut': '{0} If that asks a save, the node stops there and is opened anew; its keeper then holds the {1} number.',
    'fail': '{0} If that asks a save, it fails, and the keeper holds the {1} number.',
}


def shown(kind, token):
    """A token as a sentence has it."""
    if kind == 'LIST' and all(it.isdigit() for it in token.split(',')):
        return words.ranges({int(it) for it in token.split(',')})
    if kind == 'MS' and token.isdigit():
        return words.seconds(int(token))
    return refusals.printed(token) if len(token) <= 16 else refusals.printed(token)[:8] + '…'


def values(tokens):
    """The form of the line, and what stands at each of its places, or None if it has no form."""
    form = next((it for it in refusals.forms_of(tokens) if len(it.split()) == len(tokens)), None)
    if form is None:
        return None, []
    pairs = zip(form.split(), tokens)
    return form, [shown(kind, token) for kind, token in pairs if kind[:1].isupper() or '|' in kind]


def in_words(line):
    """The line as a sentence, or None if it is passed over or has no form."""
    tokens = line.split()
    if schedules.is_passed_over(tokens):
        return None
    if tokens[0] == 'xl-schedule':
        return SAID['xl-schedule']
    if tokens[0] in TORN and len(tokens) > 3:
        inner = in_words(' '.join(tokens[2:]))
        return inner and TORN[tokens[0]].format(inner, tokens[1])
    form, told = values(tokens)
    return SAID[form].format(*told) if form in SAID else None


def declared(lines, word):
    """What a name stands for, by the line that declares it."""
    for line in lines:
        tokens = line.split()
        if tokens[:1] in (['name'], ['ledger']) and tokens[1:2] == [word]:
            return in_words(line)
    return 'root stands for 32 zero bytes: the ledger of sequence 0.' if word == 'root' else None


def may_stand(before, tokens):
    """What may stand behind these tokens of a line; `before` are the lines before it."""
    refused = refusals.Refused([*before, ''], len(before) + 1, 39, '')
    nodes, liars = refused.names(('node',)), refused.names(('liar',))
    names = {'NODE': nodes, 'LIAR': liars, 'PEER': nodes + liars}
    names.update({kind: refused.known_ids(kind) for kind in ('ID', 'IDS', 'PARENT', 'LEDGER')})
    if not tokens:
        return list(refusals.WORDS) if before else ['xl-schedule 1']
    if tokens[0] == 'node' or tokens == ['liar']:
        names['NODE'] = []
    found = []
    for form in refusals.forms_of(tokens):
        kinds = form.split()
        if len(kinds) > len(tokens):
            kind = kinds[len(tokens)]
            found += names.get(kind, []) if kind.isupper() else kind.split('|')
    return list(dict.fromkeys(found))
