"""Many questions at once, over processes of this machine or any other Executor. Not proved."""

from __future__ import annotations

import os
import pickle
from collections import deque
from concurrent.futures import FIRST_COMPLETED, Executor, Future, wait
from itertools import islice
from operator import length_hint
from typing import Any, Iterable, Iterator

from ._processes import Pool
from ._progress import Progress
from ._questions import Answer, Numbered, Question, ask_all, failure, judged

MOST_AT_ONCE = 64
TRIES = 3  # of a question whose worker is lost


def sweep(questions: "Iterable[Question | tuple[Any, ...]]", executor: "Executor | None" = None,
          *, workers: "int | None" = None) -> Iterator[Answer]:
    """Asks each question, and yields exactly one answer for each, as it is there and in any order,
    with the number of its question from 0. An answer says what failed, and why.

    The questions go to processes of this machine, as many as `workers` or one a processor, which
    stay for the next sweep, and end with this process, or where a sweep is left. Or they go to the
    workers of an executor that is handed in: of concurrent.futures, Dask (`client.get_executor()`)
    or MPI (mpi4py's `MPIPoolExecutor()`). These need this package; `workers` is how many they are,
    if the executor doesn't say. They share nothing: a script or trace that is named is read where it
    is asked about, by its absolute name, and one in bytes is sent there. A worker answers in its own
    process, by `predict`, `diff` and `replay`.

    Questions are taken from the iterable some time ahead of their answers. A faulty one is a
    ValueError or a TypeError. What a lost worker hadn't answered is asked again, without others
    beside it, and fails after three times. An executor that is broken for good raises what it
    raises then. On a terminal a line on standard error shows how far a long sweep is."""
    asking = _Asking(map(judged, questions),
                     _Workers(executor, workers) if executor else _Processes(workers))
    try:
        with Progress("answers", length_hint(questions)) as line:
            while asking.hand_out():
                line.show()
                for each in asking.take_in():
                    line.step()
                    line.hide()
                    yield each
    finally:
        asking.end()


class _Workers:
    """The workers of an executor that is handed in."""

    a_while = 0.1  # seconds of work that one is handed at a time, if it gets as many questions

    def __init__(self, executor: Executor, workers: "int | None") -> None:
        self.workers = workers or getattr(executor, "_max_workers", None) or 32
        self._executor = executor

    def submit(self, some: list[Numbered]) -> Future[Any]:
        """Hands out questions."""
        return self._executor.submit(ask_all, some)

    def answers(self, future: Future[Any]) -> list[Answer]:
        """Their answers; raises why there are none."""
        answers: list[Answer] = future.result()
        return answers

    def end(self, is_whole: bool) -> None:
        """No more will be asked; all was answered, or nobody waits for the rest."""


class _Processes(_Workers):
    """Processes of this machine."""

    a_while = 0.02

    def __init__(self, workers: "int | None") -> None:
        self.workers = workers or len(os.sched_getaffinity(0))
        self._pool = Pool(self.workers)

    def submit(self, some: list[Numbered]) -> Future[Any]:
        return self._pool.submit(pickle.dumps(some, pickle.HIGHEST_PROTOCOL))

    def answers(self, future: Future[Any]) -> list[Answer]:
        answers: list[Answer] = pickle.loads(future.result())
        return answers

    def end(self, is_whole: bool) -> None:
        self._pool.end(is_whole)


class _Asking:
    """Questions that are handed out, and their answers."""

    def __init__(self, questions: Iterator[Question], workers: _Workers) -> None:
        self._left = enumerate(questions)
        self._again: deque[Numbered] = deque()  # of lost workers
        self._tries: dict[int, int] = {}  # how often each of these was asked
        self._workers = workers
        self._size = 1  # of what is handed out at a time
        self._out: dict[Future[Any], list[Numbered]] = {}

    # ---- what is handed out

    def hand_out(self) -> bool:
        """Hands out questions as far ahead as is good. Whether there is anything to wait for."""
        while len(self._out) < (1 if self._tries else 2 * self._workers.workers):
            some = [self._again.popleft()] if self._again else list(islice(self._left, self._size))
            if not some:
                break
            self._out[self._workers.submit(some)] = some
        return bool(self._out)

    # ---- what is taken in

    def take_in(self) -> Iterator[Answer]:
        """The answers that are there; waits for some, but not for long."""
        done, _ = wait(self._out, timeout=0.2, return_when=FIRST_COMPLETED)
        for future in done:
            some = self._out.pop(future)
            try:
                answers = self._workers.answers(future)
            except Exception as fault:
                answers = self._lost(some, fault)
            else:
                answers = self._answered(some, answers)
            yield from answers

    def _answered(self, some: list[Numbered], answers: list[Answer]) -> list[Answer]:
        """The answers with their questions. By how long they took, the next ones are handed out."""
        seconds = sum(each.seconds for each in answers) / len(answers)
        self._size = max(1, min(MOST_AT_ONCE, int(self._workers.a_while / max(seconds, 1e-6))))
        for number, _ in some:
            self._tries.pop(number, None)
        return [each._replace(number=number, question=question)
                for each, (number, question) in zip(answers, some)]

    def _lost(self, some: list[Numbered], fault: Exception) -> list[Answer]:
        """Has the questions of a lost worker asked again, but for those that were often enough."""
        ended = []
        for number, question in some:
            tries = self._tries[number] = self._tries.get(number, 0) + 1
            if tries < TRIES:
                self._again.append((number, question))
            else:
                del self._tries[number]
                why = f"no answer came, {tries} times: {type(fault).__name__}: {fault}"
                ended.append(failure(why)._replace(number=number, question=question))
        return ended

    def end(self) -> None:
        """Takes back what isn't begun."""
        for future in self._out:
            future.cancel()
        self._workers.end(not self._out)
