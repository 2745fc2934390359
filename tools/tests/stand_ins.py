"""A program in the place of a validator, which reports at its beginning and at its end, and takes what clients say."""
import os
import sys

import chains

# A word of its settings is spoilt by what SPOILS names.
STAND_IN = '''#!%s
import os, socket, sys, threading, time, tomllib
spoilt = os.environ.get('SPOILS')
if sys.argv[1] == 'audit':
    text = sys.stdin.read()
    sys.exit(print('no 3') or 1 if spoilt == 'entry' else print('yes', text.count('\\n') - 2))
if sys.argv[1] == 'blame':
    # each two journals fork at sequence 1, since one member lies: the last of their lists
    owners = [line.split()[1] for line in sys.stdin if line.startswith('settings ')]
    for place, owner in enumerate(owners, 1):
        print('journal', place, owner, 'yes 2')
    liar = 1 if spoilt == 'name' else max(map(int, owners)) + 1
    forks = len(owners) > 1 and spoilt != 'honest'
    if forks:
        print('fork 1 1 1 %%064x 2 1,%%d 2 1 %%064x 2 2,%%d 1 1' %% (1, liar, 2, liar))
        print('twice 1 %%d 1 1 %%064x 2 1 %%064x' %% (liar, 1, 2))
    print('heard 0 given 0')
    sys.exit(print('blame 0 0 1 1') or 1 if forks else print('clear'))
settings = tomllib.loads(sys.stdin.read())
me = settings['me']
def answer():
    host, port = settings['submit_at'].rsplit(':', 1)
    with socket.create_server((host, int(port))) as door:
        while True:
            client, _ = door.accept()
            with client, client.makefile() as said:
                said.readline()
                client.sendall(b'taken\\n')
if 'submit_at' in settings:
    threading.Thread(target=answer, daemon=True).start()
name = lambda sequence: '%%064x' %% (sequence + (me if spoilt == 'report' else 0))
print('full 1', name(1), flush=True)
time.sleep(settings['run_ms'] / 1000)
if spoilt != 'after':
    print('full 2', name(2))
if ('journal' in settings or 'journal_file' in settings) and spoilt != 'journal':
    second = 999 if spoilt == 'change' else 1 + %d + int(time.time())
    journal = open(settings['journal_file'], 'w') if 'journal_file' in settings else sys.stdout
    print('xl-journal 1\\nsettings %%d 1 1 16384 yes 1 1000 0' %% me, file=journal)
    print('relist %%d000 4 1,2 - = ok\\nstop - = ok' %% second, file=journal)
'''


def write(path):
    """Makes it at the path."""
    with open(path, 'w', encoding='utf-8') as file:
        file.write(STAND_IN % (sys.executable, -chains.EPOCH))
    os.chmod(path, 0o700)
