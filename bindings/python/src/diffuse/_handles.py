"""The handles of one graph, of which each call borrows one; and what ends a call."""
from __future__ import annotations

import os
import signal
import threading
import weakref
from collections import deque
from functools import lru_cache
from typing import Any, Callable, Iterable, NoReturn, Optional, TypeVar

from ._library import DONE, STOPPED, Handle, Registry, StopHandle, library
from .columns import address, arc_count, reweighed
from .errors import BadShape, Closed, InputError, refusal, shown

Result = TypeVar("Result")
SOON = 2**16
"""A search among fewer arcs ends by itself before anybody waits for it."""
_WAITING, _RENEWED = Registry(), Registry()


def fork_lock(waits: bool = False) -> Any:
    """A lock of the C library's kind, so that no signal comes between taking it and `with`.

    It is free in a forked child, in which a thread of the parent that held it would never let go.
    If it `waits`, a fork waits until no other thread holds it: what it guards is whole in the
    child.
    """
    lock = threading.RLock()
    (_WAITING if waits else _RENEWED).add(weakref.ref(lock))
    return lock


class Held(threading.local):
    """The locks that a thread holds while it forks."""

    def __init__(self) -> None:
        self.locks: list[Any] = []


_held = Held()


def _before_fork() -> None:
    _held.locks = _WAITING.living()
    for lock in _held.locks:
        lock.acquire()


def _in_parent() -> None:
    for lock in _held.locks:
        if lock._is_owned():
            lock.release()
    _held.locks = []


def _in_child() -> None:
    _held.locks = []
    for lock in [*_WAITING.living(), *_RENEWED.living()]:
        lock._at_fork_reinit()
    if signals.cache_info().currsize:
        signals().leave()
        signals.cache_clear()


os.register_at_fork(before=_before_fork, after_in_parent=_in_parent, after_in_child=_in_child)
_STOPS = fork_lock(waits=True)
"""Held while a stop of the library is used, which one thread at a time may do."""


def in_main_thread() -> bool:
    """Whether this is the thread in which the handlers of signals run."""
    return threading.current_thread() is threading.main_thread()


class Signals:
    """Ends a call of the main thread by each signal that has a handler, so that it runs at once.

    The interpreter writes a signal's number to a pipe when it comes, and a thread reads it there.
    Whoever listened at the pipe's place before, as asyncio does, is passed the number.
    """

    def __init__(self) -> None:
        self._pipe = os.pipe()
        os.set_blocking(self._pipe[1], False)
        self._lock = threading.Lock()
        self._call: Optional[Handle] = None
        self._seen: set[int] = set()
        self._before = -1
        threading.Thread(target=self._wait, name="diffuse signals", daemon=True).start()

    def _wait(self) -> None:
        while numbers := os.read(self._pipe[0], 512):
            with self._lock:
                if self._call is not None and not self._seen.issuperset(numbers):
                    self._seen.update(numbers)
                    with _STOPS:
                        _turn(self._call, True)
            if self._before >= 0:
                try:
                    os.write(self._before, numbers)
                except OSError:
                    pass

    def ask(self, handle: Handle, call: Callable[[Handle], int], seen: set[int]) -> int:
        """The status of a call, which a signal ends that was not seen yet, and is then."""
        outer, listens = (self._call, self._seen), False
        try:
            with self._lock:
                self._call, self._seen = handle, seen
            listens = self._listen()
            return call(handle)
        finally:
            with self._lock:
                self._call, self._seen = outer
            if listens and self._call is None:
                signal.set_wakeup_fd(self._before)

    def _listen(self) -> bool:
        """Has the numbers written to the pipe; not if this is an interpreter within another
        program, in whose main thread no handlers run."""
        try:
            before = signal.set_wakeup_fd(self._pipe[1], warn_on_full_buffer=False)
        except ValueError:
            return False
        self._before = self._before if before == self._pipe[1] else before
        return True

    def leave(self) -> None:
        """Gives the pipe up, in a forked child, in which no thread reads it."""
        if self._call is not None:
            signal.set_wakeup_fd(self._before)
        for end in self._pipe:
            os.close(end)


@lru_cache(maxsize=None)
def signals() -> Signals:
    """The one of this process, made at the first call that needs it."""
    return Signals()


class Stop:
    """While it is set, calls that were given it end soon, and raise Stopped.

    A call that has its answer sooner gives it. Any number of calls, graphs and networks may have
    one stop, and any thread may set or clear it. A copy is the same stop.
    """

    def __init__(self) -> None:
        self._is_set = False
        self._running: list[Handle] = []

    @property
    def is_set(self) -> bool:
        """Whether it is set."""
        return self._is_set

    def set(self) -> None:
        """From now on calls that have it end soon."""
        self._turn(True)

    def clear(self) -> None:
        """From now on calls that have it search again."""
        self._turn(False)

    def _turn(self, is_set: bool) -> None:
        with _STOPS:
            self._is_set = is_set
            for handle in self._running:
                _turn(handle, is_set)

    def _begin(self, handle: Handle) -> None:
        """A call by a handle begins."""
        with _STOPS:
            self._running.append(handle)
            _turn(handle, self._is_set)

    def _end(self, handle: Handle) -> None:
        with _STOPS:
            self._running = [other for other in self._running if other is not handle]

    def __copy__(self) -> Stop:
        return self

    def __deepcopy__(self, memo: object) -> Stop:
        return self

    def __reduce__(self) -> NoReturn:
        raise TypeError("a Stop can't be pickled, since it stops calls of its own process alone")


def _turn(handle: Handle, is_set: bool) -> None:
    """Sets or clears the stop of a handle, under the lock of all stops."""
    turn = library().diffuse_stop_set if is_set else library().diffuse_stop_clear
    if handle.stop is not None:
        handle.is_stopped = True
        turn(handle.stop)
        handle.is_stopped = is_set


def _give_stop(handle: Handle, is_wanted: bool) -> None:
    """Gives a stop to a handle that has none, or takes it away. Raises OutOfMemory."""
    if (handle.stop is None) != is_wanted:
        return
    stop, handle.stop = StopHandle(), None
    with _STOPS:
        status = library().diffuse_stop_new(stop) if is_wanted else DONE
        if status == DONE:
            status = library().diffuse_graph_stop_by(handle, stop)
    if status != DONE:
        raise refusal(status)
    handle.is_stopped, handle.stop = False, stop if is_wanted else None


def ask_by(handle: Handle, call: Callable[[Handle], int], stop: Optional[Stop], long: bool) -> int:
    """The status of a call by a handle, which a stop ends, and in the main thread a signal.

    A call that a signal ended is asked again if the signal's handler does not raise; that signal
    does not end it a second time.
    """
    watched = long and in_main_thread()
    _give_stop(handle, watched or stop is not None)
    if handle.stop is None:
        return call(handle)
    if stop is not None:
        stop._begin(handle)
    try:
        seen: set[int] = set()
        while True:
            if handle.is_stopped:
                with _STOPS:
                    _turn(handle, stop is not None and stop.is_set)
            status = signals().ask(handle, call, seen) if watched else call(handle)
            if status != STOPPED or (stop is not None and stop.is_set):
                return status
    finally:
        if stop is not None:
            stop._end(handle)


def patiently(work: Callable[[], Result], long: bool) -> Result:
    """What work returns that no stop ends. In the main thread a signal's handler may raise while
    it goes on: then it ends by itself in a thread of its own, and its result is dropped."""
    if not long or not in_main_thread():
        return work()
    found: list[Any] = []
    done = threading.Lock()

    def run() -> None:
        try:
            found.append(work())
        except BaseException as error:
            found.append(error)
        finally:
            done.release()

    done.acquire()
    threading.Thread(target=run, daemon=True).start()
    done.acquire()
    result = found.pop()
    if isinstance(result, BaseException):
        raise result
    return result  # type: ignore[no-any-return]


class Pool:
    """A first handle, others that were made of it, and what they know: the algebras of their
    factors. Those that no call uses are free; all are closed when the last call has ended."""

    def __init__(self, first: Handle, factored: Iterable[int] = ()) -> None:
        self.first, self.factored = first, frozenset(factored)
        self.free: deque[Handle] = deque()

    def taken(self, lock: Any) -> Handle:
        """A free handle, or a new one. Raises OutOfMemory."""
        try:
            return self.free.pop()
        except IndexError:
            return self.shared(lock)

    def shared(self, lock: Any) -> Handle:
        """A handle made of the first, under the lock. Raises OutOfMemory."""
        handle = Handle()
        with lock:
            status = library().diffuse_graph_share(self.first, handle)
        if status != DONE:
            raise refusal(status)
        handle.is_numbered = self.first.is_numbered
        return handle


class Handles:
    """The handles of one graph: each call borrows one, so that those of several threads run side
    by side. When the graph is factored or its arcs are numbered there is another pool of them.

    A forked child has the first handle and the free ones; those that calls of other threads used
    are lost to it. `given` are the arcs in the order in which they were given, if that is known.
    """

    def __init__(self, first: Handle, factored: Iterable[int] = (), given: Any = None) -> None:
        self.vertices = int(library().diffuse_graph_vertices(first))
        self.arcs = int(library().diffuse_graph_arcs(first))
        self.is_long = self.arcs > SOON
        self._lock, self._factoring = fork_lock(waits=True), fork_lock()
        self._pool: Optional[Pool] = Pool(first, factored)
        self._given = given

    @property
    def pool(self) -> Pool:
        """The handles that are used now. Raises Closed."""
        pool = self._pool
        if pool is None:
            raise Closed("the graph was closed")
        return pool

    def ask(self, call: Callable[[Handle], int], stop: Optional[Stop], long: bool) -> int:
        """The status of a call, by a handle that no other uses meanwhile; `long` if it may take
        long. If an exception strikes, the handle is closed. Raises Closed, OutOfMemory, or
        BadShape for what is no stop."""
        if stop is not None and not isinstance(stop, Stop):
            raise BadShape(f"stop: a diffuse.Stop is needed, not {shown(stop)}")
        pool = self.pool
        handle = pool.taken(self._lock)
        status = ask_by(handle, call, stop, long)
        pool.free.append(handle)
        return status

    def work(self, call: Callable[[Handle], int]) -> tuple[int, Handle]:
        """The status of a call that no stop ends, and its handle."""
        handle = self.pool.taken(self._lock)
        _give_stop(handle, False)  # that of an earlier call, which may be set
        return patiently(lambda: call(handle), self.is_long), handle

    def ask_patiently(self, call: Callable[[Handle], int]) -> int:
        """The status of a call that no stop ends. Raises Closed, or OutOfMemory."""
        pool = self.pool
        status, handle = self.work(call)
        pool.free.append(handle)
        return status

    def copied(self) -> Handles:
        """Handles of the same graph in memory, which are closed by themselves. Raises Closed, or
        OutOfMemory."""
        pool = self.pool
        return Handles(pool.shared(self._lock), pool.factored, self._given)

    def reweighed(self, weights: Any) -> Handles:
        """Handles of the graph of the same arcs with other weights, factored as this one is.

        Raises InputError if the arcs are not known, or a refusal of the library.
        """
        pool, given = self.pool, self._given
        if given is None:
            raise InputError("a graph that was read from a text does not keep its arcs; "
                             "one of from_columns does")
        second, arcs = Handle(), reweighed(given, weights)
        status, handle = self.work(
            lambda one: int(library().diffuse_graph_reweigh(
                one, address(arcs), self.arcs, second)))
        pool.free.append(handle)
        if status != DONE:
            raise refusal(status)
        return Handles(second, pool.factored, arcs)

    def factor(self, algebra: int, places: Any) -> int:
        """The status of factoring the graph for an algebra, once, or by the places of an order.
        Other calls go on meanwhile. Raises Closed, or OutOfMemory."""
        with self._factoring:
            pool = self.pool
            if places is None and algebra in pool.factored:
                return DONE
            status, handle = self.work(lambda one: int(
                library().diffuse_graph_factor(one, algebra) if places is None else
                library().diffuse_graph_factor_by(one, algebra, address(places), len(places))))
            return self._begin_with(status, handle, pool, pool.factored | {algebra})

    def number(self, arcs: Any) -> int:
        """The status of numbering the arcs of the graph, by their places among these or among
        those that were given. Raises InputError if the arcs are not known, Closed, or
        OutOfMemory."""
        with self._factoring:
            pool, arcs = self.pool, self._given if arcs is None else arcs
            if arcs is None:
                raise InputError("a graph that was read from a text does not keep its arcs: "
                                 "give them, in the order of the text")
            status, handle = self.work(lambda one: int(library().diffuse_graph_number(
                one, address(arcs), arc_count(arcs))))
            handle._rooms = None if status == DONE else handle._rooms
            handle.is_numbered = handle.is_numbered or status == DONE
            return self._begin_with(status, handle, pool, pool.factored)

    def _begin_with(self, status: int, handle: Handle, old: Pool, factored: Iterable[int]) -> int:
        """Makes a handle with new factors or numbers the first, unless the graph was closed."""
        if status != DONE:
            old.free.append(handle)
            return status
        with self._lock:
            if self._pool is not None:
                self._pool = Pool(handle, factored)
        return status

    def close(self) -> None:
        """Closes all handles; those that calls use, when the calls end."""
        with self._lock:
            self._pool = self._given = None
