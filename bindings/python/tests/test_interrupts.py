"""Signals that strike at random moments: nothing stays locked or is lost, and a call ends at once."""
import copy
import gc
import os
import random
import select
import signal
import threading
import time
import unittest
from unittest import mock

import diffuse
from diffuse import Graph, Network
from diffuse._library import Handle

from .examples import ARCS
from .test_threads import grid

PATIENCE = 600
INTERRUPTS = 20_000
SOON, TRIES = 0.1, 10
"""In seconds of processor time: on a machine that is in use a thread may wait for a processor."""
LATE = 2
"""In seconds by the clock, which the soonest of the tries has at most, however much the machine is in use."""


class Interrupt(Exception):
    """What the handler of a signal raises."""


def living():
    """How many handles there are."""
    gc.collect()
    return sum(isinstance(thing, Handle) for thing in gc.get_objects())


def living_after(most):
    """How many handles there are, once they are at most so many: calls that no stop ends go on in threads of their own, and have theirs."""
    ends = time.monotonic() + PATIENCE
    while (found := living()) > most and time.monotonic() < ends:
        time.sleep(0.05)
    return found


class Signals(unittest.TestCase):
    def handled(self, number, handler):
        """Lets a signal have a handler until the test ends."""
        self.addCleanup(signal.signal, number, signal.signal(number, handler))

    def asked(self, ask):
        """Whether another thread has an answer."""
        thread = threading.Thread(target=ask, daemon=True)
        thread.start()
        thread.join(PATIENCE)
        return not thread.is_alive()


class AtRandomMoments(Signals):
    def strike(self, ask, times):
        """Asks again and again, and is interrupted so often, at random moments; now and then another thread asks. An exception that
        is raised while something is collected is lost: then the loop ends by what its handler has noted."""
        struck = []

        def strikes(*_):
            struck.append(True)
            raise Interrupt

        self.handled(signal.SIGALRM, strikes)
        lot = random.Random(1)
        for count in range(times):
            try:
                struck.clear()
                signal.setitimer(signal.ITIMER_REAL, lot.uniform(1e-5, 4e-4))
                while not struck:
                    ask()
            except Interrupt:
                pass
            except BaseException:
                signal.setitimer(signal.ITIMER_REAL, 0)
                raise
            if count % 250 == 0:
                self.assertTrue(self.asked(ask), f"another thread waits for ever after {count} interrupts")

    def test_no_lock_is_held_and_no_handle_is_lost(self):
        graph, before = Graph(5, ARCS), living()
        self.strike(lambda: graph.route(1, 4), INTERRUPTS)
        self.assertEqual(graph.route(1, 4).value, 8)
        self.assertLessEqual(living_after(before + 2), before + 2)

    def test_calls_that_signals_end(self):
        graph, before = grid(140), living()
        self.strike(lambda: graph.route(1, 140), INTERRUPTS // 10)
        self.strike(lambda: graph.tree(1), INTERRUPTS // 50)
        self.assertEqual(graph.tree(1).hops[0], 0)
        self.assertLessEqual(living_after(before + 3), before + 3)

    def test_networks(self):
        network = Network.from_table({"a": ["A", "B"], "b": ["B", "C"], "m": [1, 2]}, tail="a", head="b", costs={"m": 1})
        self.strike(lambda: network.route("A", "C", by="m"), INTERRUPTS // 10)
        self.assertEqual(network.route("A", "C", by="m").cost, 3)

    def test_graphs_that_are_made_and_factored(self):
        before = living()

        def ask():
            graph = Graph(5, ARCS)
            graph.factor()
            graph.number()
            graph.with_weights([1] * 7).route(1, 4)

        self.strike(ask, INTERRUPTS // 10)
        self.assertLessEqual(living_after(before + 4), before + 4)


class AtOnce(Signals):
    """A table that takes seconds."""

    @classmethod
    def setUpClass(cls):
        cls.graph = grid(250)
        cls.many = list(range(1, 250 * 250, 80))

    def timed(self, ask, number, after=0.3):
        """How long after a signal a call ended, in processor time and by the clock, and what it raised; None if it raised nothing."""
        ended, sent, begun = [], [], threading.Event()

        def send():
            begun.wait(PATIENCE)
            time.sleep(after)
            sent.extend((time.process_time(), time.monotonic()))
            os.kill(os.getpid(), number)

        thread = threading.Thread(target=send)
        thread.start()
        try:
            begun.set()
            ask()
            thread.join(PATIENCE)
        except BaseException as error:
            ended = [time.process_time(), time.monotonic(), error]
        thread.join(PATIENCE)
        return (ended[0] - sent[0], ended[1] - sent[1], ended[2]) if ended else None

    def ended_by(self, ask, number, after=0.3):
        """The same of a call that the signal ended: another try, if the call ended by itself before it came."""
        for _ in range(TRIES):
            found = self.timed(ask, number, after)
            if found is not None:
                return found
        self.fail("each call ended before its signal came")

    def test_ctrl_c_ends_a_call(self):
        pairs = [(v, v + step) for v in range(1, 40_000) for step in (1, 200)]
        tails, heads = zip(*pairs)
        network = Network.from_table({"a": tails, "b": heads, "m": [1] * len(pairs)}, tail="a", head="b", costs={"m": 1}, both_ways=True)
        network.graph("m")
        stop, places = diffuse.Stop(), list(range(1, 40_000, 40))
        for ask in (lambda: self.graph.table(self.many, self.many), lambda: self.graph.table(self.many, self.many, stop=stop),
                    lambda: network.table(places, places, by="m")):
            for _ in range(TRIES):
                worked, waited, error = self.ended_by(ask, signal.SIGINT)
                self.assertIsInstance(error, KeyboardInterrupt)
                if worked < SOON and waited < LATE:
                    break
            self.assertLess(worked, SOON)
            self.assertLess(waited, LATE)
        self.assertFalse(stop.is_set)
        self.assertEqual(self.graph.route(1, 2).hops, 1)

    def test_a_handler_that_does_not_raise(self):
        """The call is asked again, and the handler is called during it."""
        seen = []
        self.handled(signal.SIGUSR1, lambda *_: seen.append(time.monotonic()))
        part = self.many[:60]
        wanted = self.graph.table(part, part)
        found = []
        self.assertIsNone(self.timed(lambda: found.append(self.graph.table(part, part)), signal.SIGUSR1, 0.05))
        self.assertEqual(([list(row) for row in found[0]], len(seen)), ([list(row) for row in wanted], 1))

    def test_signals_without_end_do_not_keep_a_call_from_its_answer(self):
        self.handled(signal.SIGALRM, lambda *_: None)
        signal.setitimer(signal.ITIMER_REAL, 0.01, 0.01)
        self.addCleanup(signal.setitimer, signal.ITIMER_REAL, 0)
        part = self.many[:60]
        self.assertEqual(len(self.graph.table(part, part)), len(part))

    def test_calls_that_no_stop_ends(self):
        """Making a graph goes on in a thread of its own, while the handler raises."""
        side = 700
        pairs = [(v, v + step) for v in range(1, side * side) for step in (1, side) if v + step <= side * side]
        tails, heads = zip(*pairs)
        graph = Graph.from_columns(tails, heads, [1] * len(pairs), side * side)
        *_, error = self.ended_by(lambda: [graph.number(zip(tails, heads, [1] * len(pairs))) or graph.factor() for _ in range(20)], signal.SIGINT, 0.05)
        self.assertIsInstance(error, KeyboardInterrupt)
        self.assertEqual(graph.route(1, 2).hops, 1)

    def test_who_listened_before_is_told_too(self):
        ends = os.pipe()
        os.set_blocking(ends[1], False)
        before = signal.set_wakeup_fd(ends[1])
        self.addCleanup(signal.set_wakeup_fd, before)
        self.timed(lambda: self.graph.table(self.many, self.many), signal.SIGINT)
        self.assertEqual(select.select([ends[0]], [], [], PATIENCE)[0], [ends[0]])
        self.assertEqual(os.read(ends[0], 10), bytes([signal.SIGINT]))
        self.assertEqual(signal.set_wakeup_fd(-1), ends[1])

    def test_an_interpreter_without_signals(self):
        """In a program that has another main thread, calls are asked all the same."""
        part = self.many[:20]
        with mock.patch("signal.set_wakeup_fd", side_effect=ValueError("only works in main thread of the main interpreter")):
            self.assertEqual(len(self.graph.table(part, part)), len(part))

    def test_forks(self):
        """A child has signals of its own."""
        pid = os.fork()
        if not pid:
            signal.alarm(PATIENCE)
            found = self.ended_by(lambda: self.graph.table(self.many, self.many), signal.SIGINT)
            os._exit(0 if isinstance(found[2], KeyboardInterrupt) else 1)
        self.assertEqual(os.waitstatus_to_exitcode(os.waitpid(pid, 0)[1]), 0)


class Stops(unittest.TestCase):
    def test_a_copy_is_the_same_stop(self):
        for made in (copy.copy, copy.deepcopy):
            stop = diffuse.Stop()
            other = made(stop)
            del stop
            gc.collect()
            other.set()
            self.assertRaises(diffuse.Stopped, grid(40).table, list(range(1, 1601)), [1], stop=other)

    def test_methods_of_networks(self):
        side = 150
        pairs = [(v, v + step) for v in range(1, side * side + 1) for step in (1, side) if v + step <= side * side]
        network = Network.from_table(
            {"a": [a for a, _ in pairs], "b": [b for _, b in pairs], "m": [1] * len(pairs)}, tail="a", head="b", costs={"m": 1}, both_ways=True,
            places={"place": range(1, side * side + 1), "lon": [v % side for v in range(side * side)], "lat": [v // side for v in range(side * side)]}, degrees=False)
        stop, last = diffuse.Stop(), side * side
        asks = [lambda begin: network.route(begin, last, "m", stop=stop), lambda begin: network.routes([(begin, last)], "m", stop=stop),
                lambda begin: network.tree(begin, "m", stop=stop), lambda begin: network.table(begin, [last], "m", stop=stop),
                lambda begin: network.isochrone(begin, "m", [last], stop=stop),
                lambda begin: network.route_between((begin + 0.5, 0.0), (side - 1.0, side - 1.0), "m", stop=stop)]
        for begin, ask in enumerate(asks, 1):
            ask(begin)
        stop.set()
        for begin, ask in enumerate(asks, 11):
            self.assertRaises(diffuse.Stopped, ask, begin)
        stop.clear()
        for begin, ask in enumerate(asks, 21):
            ask(begin)

    def test_what_is_no_stop(self):
        with self.assertRaises(diffuse.BadShape) as caught:
            Graph(5, ARCS).tree(1, stop=True)
        self.assertEqual(str(caught.exception), "stop: a diffuse.Stop is needed, not True")
        self.assertRaisesRegex(TypeError, "a Stop can't be pickled", diffuse.Stop().__reduce__)


if __name__ == "__main__":
    unittest.main()
