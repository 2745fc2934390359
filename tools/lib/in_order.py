"""Runs `rt all check` so that what the longest chain of crates needs is begun first. tools/build runs it.

  python3 in_order.py RT LANES NAME=SECONDS ..

RT is the path of the kit's rt, and LANES crates are proved side by side. A NAME has the seconds that the longest chain
from its beginning on takes. A crate gets further processors if nothing else can use them.

rt begins with the crates that have the fewest below them, so the longest chain waits behind others. Two runs of rt in one
checkout wait for each other, since each locks all crates below the one that it proves. So the order is changed within one
run: where rt hands its crates to a pool of threads, a pool stands that chooses. The quick pass with which rt looks for
what needs no proof to find is left out: it takes minutes at the top crate, in which nothing is proved. If the kit's rt is
built otherwise, it runs as it is."""
import sys

sys.dont_write_bytecode = True
import importlib.machinery
import importlib.util
import os
import threading
from concurrent.futures import Future, ThreadPoolExecutor


def read_rt(path):
    """The kit's rt, as a module."""
    loader = importlib.machinery.SourceFileLoader('rt', path)
    module = importlib.util.module_from_spec(importlib.util.spec_from_loader('rt', loader))
    sys.modules['rt'] = module
    loader.exec_module(module)
    return module


class Lanes(ThreadPoolExecutor):
    """Of the crates whose libraries are ready, the one with the longest chain is taken first."""

    chain = {}
    jobs = {}  # how many processors a crate has that was taken

    def __init__(self, at_once):
        super().__init__(at_once)
        self.free, self.turn = at_once, threading.Condition()
        self.waiting, self.ended = [], set()

    def submit(self, work, *given):
        if not (given and hasattr(given[0], 'below')):
            return super().submit(work, *given)
        future = Future()
        with self.turn:
            self.waiting.append((given[0], work, future))
            self.turn.notify_all()
        super().submit(self.take)
        return future

    def ready(self):
        if not self.free:
            return []
        return [it for it in self.waiting if self.ended.issuperset(crate.name for crate in it[0].below())]

    def take(self):
        with self.turn:
            ready = self.turn.wait_for(self.ready)
            crate, work, future = taken = max(ready, key=lambda it: self.chain.get(it[0].name, 0))
            self.waiting.remove(taken)
            jobs = self.jobs[crate.name] = max(1, self.free - len(ready) + 1)
            self.free -= jobs
        try:
            future.set_result(work(crate))
        except BaseException as why:
            future.set_exception(why)
        with self.turn:
            self.ended.add(crate.name)
            self.free += jobs
            self.turn.notify_all()


def put_in_order(rtlib, chain):
    """Changes the order. An rt without these parts raises AttributeError, and nothing is changed then."""
    _, _, build = rtlib.ThreadPoolExecutor, rtlib.Crate.front_end, rtlib.Crate.build_rlib
    Lanes.chain = chain
    rtlib.ThreadPoolExecutor = Lanes
    rtlib.Crate.front_end = lambda crate: 0
    rtlib.Crate.build_rlib = lambda crate, flags, anew: build(crate, ['--jobs', str(Lanes.jobs.get(crate.name, 1))], anew)


def main():
    path, lanes, *seconds = sys.argv[1:]
    words = ['all', 'check', '--jobs', lanes]
    try:
        rt = read_rt(path)
        put_in_order(rt.rtlib, {name: int(took) for name, _, took in (it.partition('=') for it in seconds)})
    except (SyntaxError, ImportError, AttributeError, OSError):
        os.execv(path, [path, *words])
    return rt.main(words)


if __name__ == '__main__':
    sys.exit(main())
