"""Asks a target for the traces of compiled runs: many runs at a time, again if a byte was lost, and alone if one ended the others."""
import collections
import queue
import threading

import comparing
import compiling
import lines
import saidtraces
import targets

TRIES = 4  # how often a run is asked for whose trace did not come whole
MUTE = 2  # how often in a row the other side may say nothing at all


class Asking:
    """The runs that are asked for, and what has come."""

    def __init__(self, target, compiled, words, mode, progress):
        self.target, self.compiled, self.words, self.mode, self.progress = target, compiled, words, mode, progress
        self.traces, self.silent, self.version = {}, {}, None
        self.tries, self.lock, self.stop = collections.Counter(), threading.Lock(), threading.Event()
        self.batches, self.failure, self.mute = queue.Queue(), None, 0

    def put(self, numbers, most):
        """Queues runs, in files that are not too large."""
        place = {id(self.compiled[number]): number for number in numbers}
        for part in compiling.parts_of([self.compiled[number] for number in numbers], most):
            self.batches.put([place[id(one)] for one in part])

    def ask(self, numbers):
        """Asks for some runs at once, and takes in what came."""
        file = compiling.file_bytes([self.compiled[number].words for number in numbers], self.words, self.mode)
        said = saidtraces.read(self.target.answer(file, self.stop))
        if said.refused:
            raise targets.NoTarget(f"the other side refuses the file: {lines.visible(said.refused)}")
        with self.lock:
            self.mute = 0 if said.version else self.mute + 1
            if self.mute == MUTE:
                raise targets.NoTarget("the other side says nothing, not even its first line, `@conform 1 ..`")
            self.take(numbers, said)
            self.progress(len(self.traces) + len(self.silent), len(self.compiled))

    def take(self, numbers, said):
        """Takes in what came: whole traces are kept, the run in which all ended goes alone, and the others go again."""
        self.version = said.version or self.version
        for place, number in enumerate(numbers):
            if place in said.traces:
                self.traces[number] = said.traces[place]
            elif place in said.cannot:
                self.silent[number] = said.cannot[place]
        begun = len(numbers) if said.last_begun is None else said.last_begun + 1
        self.tries.update(number for number in numbers[:begun] if self.is_left(number))
        left = list(filter(self.is_left, numbers))
        has_ended = not (said.is_done or said.last_begun is None or said.last_begun in said.spoiled)
        self.again(left, numbers[said.last_begun] if has_ended else None, len(numbers))

    def is_left(self, number):
        """Whether nothing is known of a run yet."""
        return number not in self.traces and number not in self.silent

    def again(self, left, ended, count):
        """Queues the runs that have no trace, unless they had enough tries: alone the one in which all ended, and one whose trace was often lost."""
        others = []
        for number in left:
            if number == ended and count == 1:
                self.silent[number] = "the other side stopped in this run"
            elif self.tries[number] >= TRIES and count == 1:
                self.silent[number] = "its trace never came whole"
            elif number == ended or self.tries[number] >= TRIES - 1:
                self.batches.put([number])
            else:
                others.append(number)
        self.put(others, self.target.together)

    def work(self):
        """Asks for what is queued, until all has come."""
        while not self.stop.is_set():
            with self.lock:
                if len(self.traces) + len(self.silent) == len(self.compiled):
                    return
            try:
                numbers = self.batches.get(timeout=0.1)
            except queue.Empty:
                continue
            try:
                self.ask(numbers)
            except Exception as error:  # shown by who waits for this thread
                self.failure = self.failure or error
                self.stop.set()

    def run(self, jobs):
        """Asks for all, with that number of files under way at a time."""
        self.put(range(len(self.compiled)), self.target.together)
        threads = [threading.Thread(target=self.work) for _ in range(jobs)]
        try:
            for thread in threads:
                thread.start()
            for thread in threads:
                while thread.is_alive():
                    thread.join(0.2)
        finally:
            self.stop.set()
            for thread in threads:
                if thread.ident:
                    thread.join()
        if self.failure:
            raise self.failure


def traces_of(target, compiled, words, mode, jobs, progress=lambda done, whole: None):
    """The traces of compiled runs by their numbers, why others have none, and the version of the other side."""
    if isinstance(target, targets.Files):
        found = {number: target.trace_of(one.run) for number, one in enumerate(compiled)}
        silent = {number: "no trace of it was brought" for number, trace in found.items() if trace is None}
        return {number: trace for number, trace in found.items() if trace is not None}, silent, target.version
    asking = Asking(target, compiled, words, mode, progress)
    if compiled:
        asking.run(jobs)
    return asking.traces, asking.silent, asking.version


def compare(target, compiled, words, mode, jobs, progress):
    """The results of compiled runs, in their order, and the version of the other side."""
    traces, silent, version = traces_of(target, compiled, words, mode, jobs, progress)
    results = []
    for number, one in enumerate(compiled):
        if number in traces:
            results.append(comparing.judged_trace(one.run, traces[number], words))
        else:
            results.append(comparing.Compared(one.run, comparing.SILENT, None, None, None, None, silent[number]))
    return results, version
