"""Runs a command in a group of its own, which ends with whoever runs it."""
import contextlib
import os
import signal
import subprocess

from progress import FOLDER


def run(words, log, hear, **more):
    """Runs rt in the program's folder, in a group of its own, so that an interrupt reaches it once."""
    how = dict(cwd=FOLDER, stdout=subprocess.PIPE, stderr=subprocess.STDOUT, start_new_session=True)
    process = subprocess.Popen(words, **{**how, **more})
    with guarded(process):
        try:
            for line in process.stdout:
                log.write(line)
                log.flush()
                hear(line.decode(errors='replace'))
            return process.wait()
        except BaseException:
            stop_group(process)
            raise


@contextlib.contextmanager
def guarded(process):
    """Ends the group of the process if this one is killed: what guards it then reads the end of its input."""
    ends = 'read _; kill -s TERM -- -%d; sleep 2; kill -s KILL -- -%d' % (process.pid, process.pid)
    quiet = dict(stdout=subprocess.DEVNULL, stderr=subprocess.DEVNULL, start_new_session=True)
    with subprocess.Popen(['sh', '-c', ends], stdin=subprocess.PIPE, **quiet) as guard:
        try:
            yield
        finally:
            guard.kill()


def stop_group(process):
    for kind in (signal.SIGINT, signal.SIGTERM, signal.SIGKILL):
        try:
            os.killpg(process.pid, kind)
            process.wait(timeout=5)
            return
        except subprocess.TimeoutExpired:
            pass
        except ProcessLookupError:
            return
