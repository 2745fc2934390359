"""`xl tell`, which runs beside a tool and is handed a schedule line after line.

So that all is told of the lines that were put, a question is put behind them, which changes nothing: once the program
begins with it, it is through with them. Behind a refused line nothing is told."""
import collections
import os
import select
import subprocess

import command


class Beside:
    """A run that goes on. `count` is how many lines were put."""

    def __init__(self, program):
        streams = dict(stdin=subprocess.PIPE, stdout=subprocess.PIPE, stderr=subprocess.DEVNULL, bufsize=0)
        try:
            self.process = subprocess.Popen([program, 'tell'], **streams)
        except OSError as error:
            command.stop('%s can\'t be run: %s' % (program, error.strerror))
        os.set_blocking(self.process.stdin.fileno(), False)
        self.count, self.unsent, self.lines, self.begun = 0, [], collections.deque(), b''

    def put(self, line):
        self.count += 1
        self.unsent.append(line)

    def ask(self, node):
        """What is told of the lines since the last question, each as its words: up to five, of which the last has the rest."""
        self.put('prefer %s' % node)
        self.send()
        while True:
            while not self.lines:
                if not self.read():
                    return
            words = self.lines.popleft().split(maxsplit=4)
            if words[0] == b'event' and int(words[1]) == self.count:
                return
            yield words

    def send(self):
        """Sends all lines that wait. What the program says meanwhile is read, so that neither waits for the other."""
        left, self.unsent = memoryview('\n'.join([*self.unsent, '']).encode('latin-1')), []
        try:
            while left:
                readable, writable, _ = select.select([self.process.stdout], [self.process.stdin], [])
                if readable and not self.read():
                    return
                if writable:
                    left = left[os.write(self.process.stdin.fileno(), left) :]
        except BrokenPipeError:
            pass  # why the program ended stands in what it said

    def read(self):
        """Whether the program said more, which is kept line by line."""
        came = os.read(self.process.stdout.fileno(), 1 << 16)
        *whole, self.begun = (self.begun + came).split(b'\n')
        self.lines.extend(whole)
        return came

    def close(self):
        """Ends the run, and hands out its status."""
        self.process.stdin.close()
        while self.read():
            pass
        self.process.stdout.close()
        return self.process.wait()
