"""Whether the files that a node's settings name can stand where they are to stand."""
import fcntl
import os


def is_other(path):
    """Something has this name that is no plain file."""
    return os.path.lexists(path) and (os.path.islink(path) or not os.path.isfile(path))


def look_at_status(folder, path, found):
    """Where the node is to say how it is."""
    path = os.path.join(folder, path)
    within = os.path.dirname(path)
    if not os.path.isdir(within):
        found.bad('the status can\'t stand at %s: there is no such folder' % path)
    elif not os.access(within, os.W_OK):
        found.bad('the status can\'t stand at %s: its folder can\'t be written' % path)
    elif any(map(is_other, (path, path + '.new', path + '.lock'))):
        found.bad('the status can\'t stand at %s: that, or .new or .lock behind it, is no plain file' % path)
    else:
        found.ok('the status can stand at %s' % path)


def look_at_journal(folder, path, found):
    """Where the node is to write its journal as it goes."""
    path = os.path.join(folder, path)
    within = os.path.dirname(path)
    if not os.path.isdir(within):
        found.bad('the journal can\'t stand at %s: there is no such folder' % path)
    elif not os.access(within, os.W_OK):
        found.bad('the journal can\'t stand at %s: its folder can\'t be written' % path)
    elif is_other(path):
        found.bad('the journal can\'t stand at %s: that is no plain file' % path)
    elif is_locked(path):
        found.bad('the journal can\'t stand at %s: a node that runs writes there' % path)
    else:
        found.ok('the journal can stand at %s%s' % (path, ', and what stands there gets a new name' * os.path.exists(path)))


def is_locked(path):
    """Another process has locked this file. One that can't be opened counts as locked."""
    if not os.path.exists(path):
        return False
    try:
        with open(path, 'r+b') as file:
            fcntl.flock(file, fcntl.LOCK_EX | fcntl.LOCK_NB)
    except OSError:
        return True
    return False
