"""Tests of runs in slices, deadlines and what runs use, by unittest."""
import asyncio
import builtins
import contextlib
import gc
import os
import pathlib
import pickle
import signal
import sys
import tempfile
import threading
import time
import unittest

import jt
from jt import (
    Budget,
    Cancelled,
    Context,
    ContextError,
    Fault,
    Image,
    JtError,
    NoMemory,
    Options,
    Report,
    Run,
    Spent,
    Template,
    Templates,
    TimeoutError,
    Used,
)
from jt._library import library

sys.path.append(str(pathlib.Path(__file__).resolve().parent))
from test_jt import Counted, Holding, Raising, in_threads

ROOT = pathlib.Path(__file__).resolve().parents[2]
ROWS = "{% for i in range(n) %}{{ i }},{% endfor %}"
# A run of this template ends when its fuel is spent: for hours.
ENDLESS = "".join(f"{{% for {name} in range(1000) %}}" for name in "abcdef") + "{% endfor %}" * 6
AMPLE = Budget(fuel=2**60)
SIZES = (1, 7, 1000)
# The seconds by which a run may end late. An idle machine needs some hundredths; that of the gate is busy.
LATE = 3


def endless():
    return Template("t", {"t": ENDLESS}).compile()


def outcome_of(call):
    """Returns the text of a call, or its error as its kind and its parts."""
    try:
        return call()
    except JtError as error:
        return type(error), vars(error)


def by_slices(image, context, budget, steps):
    """Returns how a run in slices ends, and their number."""
    count = 1
    with image.start(context, budget) as run:
        try:
            while run.advance(steps):
                count += 1
        except NoMemory:
            pass
        return outcome_of(run.outcome), count


class Soon(threading.Event):
    """An event that another thread sets a moment after a run has asked for it first."""

    timer = None

    def is_set(self):
        if self.timer is None:
            self.timer = threading.Timer(0.1, self.set)
            self.timer.start()
        return super().is_set()


class Elapsed:
    """The seconds of a block."""

    def __enter__(self):
        self.begin = time.monotonic()
        return self

    def __exit__(self, *_):
        self.seconds = time.monotonic() - self.begin


class Slices(Holding):
    def test_the_outcome_is_that_of_one_call(self):
        text = "{% macro m(x) %}{{ x }}{% endmacro %}{% for i in xs %}{{ m(i) }}{% endfor %}"
        for source, context, budget in (
            (text, {"xs": ["a", 1, "é"]}, Budget()),
            (text, {"xs": [[]]}, Budget()),
            (text, {"xs": 7}, Budget()),
            (text, {"xs": ["a"] * 9}, Budget(fuel=40)),
            (text, {"xs": ["a"] * 9}, Budget(output=5)),
            (text, {"xs": ["a"]}, Budget(depth=0)),
            (text, {"xs": ["a" * 100]}, Budget(size=50)),
            (text, {"xs": ["a"]}, Budget(nesting=0)),
            ("{{ 1 // n }}", {"n": 0}, Budget()),
            ("", {}, Budget()),
            ("", {}, Budget(fuel=0)),
            (ROWS, {"n": 5000}, Budget()),
        ):
            image = Template("t", {"t": source}).compile()
            wanted = outcome_of(lambda: image.run(context, budget))
            for steps in (*SIZES, 2**32 - 1):
                found, count = by_slices(image, context, budget, steps)
                self.assertEqual(found, wanted)
                if steps == 2**32 - 1:
                    self.assertEqual(count, 1)

    def test_a_slice_of_no_steps(self):
        image = Template("t", {"t": "a"}).compile()
        with image.start() as run:
            self.assertTrue(run.advance(0))
            self.assertFalse(run.ended)
            self.assertFalse(run.advance(1000))
            self.assertTrue(run.ended)
            # it has ended for good
            self.assertFalse(run.advance(0))
            self.assertEqual([run.outcome(), run.outcome()], ["a", "a"])

    def test_a_text_of_any_length(self):
        for length in (0, 4095, 4096, 4097, 200_000):
            image = Template("t", {"t": "a" * length}).compile()
            self.assertEqual(by_slices(image, None, Budget(), 100)[0], "a" * length)

    def test_a_run_that_goes_on_has_no_outcome(self):
        with Template("t", {"t": ROWS}).compile().start({"n": 9}) as run:
            for _ in range(3):
                with self.assertRaisesRegex(ValueError, "has not ended"):
                    run.outcome()
                self.assertTrue(run.advance(2))
            self.assertEqual(repr(run), "<jt.Run, going>")

    def test_runs_take_turns(self):
        image = Template("t", {"t": ROWS}).compile()
        runs = {n: image.start({"n": n}) for n in range(30)}
        going = dict(runs)
        while going:
            going = {n: run for n, run in going.items() if run.advance(n % 5 + 1)}
        for n, run in runs.items():
            self.assertEqual(run.outcome(), "".join(f"{i}," for i in range(n)))
            run.close()

    def test_a_run_needs_neither_its_image_nor_its_context(self):
        image, context = Template("t", {"t": ROWS}).compile(), Context({"n": 20})
        with Counted() as counted:
            run = image.start(context)
            run.advance(10)
            image.close()
            context.close()
            image = context = None
            while run.advance(3):
                pass
            self.assertTrue(run.outcome().endswith(",19,"))
            run.close()
            self.assertEqual(counted.left()[0], [])
        self.assertEqual(run.__repr__(), "<jt.Run, closed>")

    def test_a_stop_at_each_slice_gives_all_memory_back(self):
        source = "{% set a = xs|map('upper')|list %}{% for x in a %}{{ x ~ '!' }}{% endfor %}"
        image, context = Template("t", {"t": source}).compile(), Context({"xs": ["a" * 99] * 9})
        image.run(context)  # (which makes a handle that is kept)
        is_over, stop = False, 0
        while not is_over:
            before = library.jt_memory_held()
            run = image.start(context)
            most = library.jt_memory_held()
            for _ in range(stop):
                is_over = not run.advance(1)
                most = max(most, library.jt_memory_held())
            self.assertGreater(most, before)
            run.close()
            self.assertEqual(library.jt_memory_held(), before, stop)
            stop += 1
        self.assertGreater(stop, 30)

    def test_a_closed_run_raises(self):
        image = Template("t", {"t": "a"}).compile()
        with image.start() as run:
            run.advance(100)
        run.close()
        for use in (run.outcome, lambda: run.used, lambda: run.advance(1), run.__enter__):
            with self.assertRaisesRegex(ValueError, "the run is closed"):
                use()
        image.close()
        with self.assertRaisesRegex(ValueError, "closed"):
            image.start()

    def test_a_run_that_nobody_closes_is_freed(self):
        image = Template("t", {"t": ROWS}).compile()
        with Counted() as counted:
            run = image.start({"n": 1000})
            run.advance(10)
            cycle = [run]
            cycle.append(cycle)
            del run, cycle
            image.close()
            self.assertEqual(counted.left(), ([], {}, set()))

    def test_a_run_stays_on_its_thread(self):
        image = Template("t", {"t": ROWS}).compile()
        with Counted() as counted:
            run = image.start({"n": 1000})

            def elsewhere():
                for use in (run.outcome, lambda: run.used, lambda: run.advance(1)):
                    with self.assertRaisesRegex(ValueError, "another thread"):
                        use()

            in_threads(2, elsewhere)
            self.assertTrue(run.advance(10))
            # closed elsewhere, and freed here at the next call
            in_threads(1, run.close)
            with self.assertRaisesRegex(ValueError, "closed"):
                run.advance(1)
            self.assertEqual(image.start({"n": 1}).advance(100), False)
            gc.collect()
            image.close()
            self.assertEqual(counted.left(), ([], {}, set()))

    def test_the_runs_of_a_thread_are_freed_at_its_end(self):
        image = Template("t", {"t": ROWS}).compile()
        kept = []
        with Counted() as counted:
            in_threads(3, lambda: kept.append(image.start({"n": 1000})))
            self.assertEqual(counted.of("jt_run_free"), 3)
            for run in kept:
                with self.assertRaisesRegex(ValueError, "another thread"):
                    run.advance(1)
            image.close()
            self.assertEqual(counted.left(), ([], {}, set()))

    def test_threads_have_runs_of_one_image(self):
        image, context = Template("t", {"t": ROWS}).compile(), Context({"n": 200})
        wanted = image.run(context)

        def many():
            for steps in (10, 50, 1000):
                self.assertEqual(by_slices(image, context, Budget(), steps)[0], wanted)

        in_threads(6, many)

    def test_wrong_arguments(self):
        image = Template("t", {"t": "a"}).compile()
        with image.start() as run:
            for steps, kind in ((-1, ValueError), (2**32, ValueError), (1.5, TypeError),
                                (True, TypeError), (None, TypeError)):
                with self.assertRaises(kind):
                    run.advance(steps)
        for call in (image.run, image.start, image.run_report):
            with self.assertRaises(TypeError):
                call({}, {"fuel": 7})
            with self.assertRaises(ContextError):
                call({"a": 1.5})
            with self.assertRaises(TypeError):
                call("{}", a=1)
        for wrong in ({"timeout": "1"}, {"timeout": True}, {"timeout": float("nan")},
                      {"cancel": True}, {"cancel": lambda: True}):
            for call in (image.run, image.run_report, lambda **it: asyncio.run(image.arun(**it))):
                with self.assertRaises(TypeError):
                    call(**wrong)
        with self.assertRaises(TypeError):
            Run()

    def test_memory_is_limited(self):
        source = "{% for x in xs %}{{ x ~ '!' }}{% endfor %}"
        image, context = Template("t", {"t": source}).compile(), Context({"xs": ["a", 1] * 20})
        wanted, refused = "a!1!" * 20, 0
        for given in (context, {"xs": ["a", 1] * 20}):
            for memory in range(0, 65536, 256):
                budget = Budget(memory=memory)
                ends = []
                for steps in (3, 1000):
                    try:
                        ends.append(by_slices(image, given, budget, steps)[0])
                    except NoMemory:
                        ends.append(NoMemory)
                for end in ends:
                    if end != wanted:
                        self.assertIn(end, (NoMemory, (NoMemory, {})))
                        refused += 1
                        last = memory
            self.assertEqual(image.run(given), wanted)
            self.assertLess(last, 65536 - 256)
        self.assertGreater(refused, 10)
        self.assertEqual(library.jt_memory_limit(jt._library.NO_LIMIT), jt._library.NO_LIMIT)

    def test_a_lost_run(self):
        lists = "".join(f"{{% set a{i} = range(65535)|map('abs') %}}" for i in range(300))
        image = Template("t", {"t": lists}).compile()
        with image.start(None, Budget(fuel=10**9, memory=8_000_000)) as run:
            with self.assertRaises(NoMemory):
                while run.advance(5):
                    pass
            for use in (run.outcome, lambda: run.advance(1)):
                with self.assertRaises(NoMemory):
                    use()
            self.assertFalse(run.ended)
        report = image.run_report(None, Budget(fuel=10**9, memory=8_000_000))
        self.assertIsInstance(report.error, NoMemory)

    def test_refused_memory_is_raised(self):
        image = Template("t", {"t": "a"}).compile()
        call = library.jt_run_start
        library.jt_run_start = lambda *_: 6
        try:
            with self.assertRaises(NoMemory):
                image.start()
        finally:
            library.jt_run_start = call


@unittest.skipUnless((ROOT / "tests" / "rows").is_dir(), "no tests/")
class Rows(Holding):
    """The rows of tests/: their outcomes by slices are those of `run`."""

    def setUp(self):
        super().setUp()
        sys.path.insert(0, str(ROOT / "tests"))

    def tearDown(self):
        sys.path.remove(str(ROOT / "tests"))
        super().tearDown()

    def same(self, image, context, budget):
        wanted = outcome_of(lambda: image.run(context, budget))
        for steps in SIZES:
            self.assertEqual(by_slices(image, context, budget, steps)[0], wanted)
        return wanted

    @unittest.skipIf(sys.version_info < (3, 9), "tests/ needs a later Python")
    def test_rows_of_images(self):
        import images

        count = 0
        for place, row in images.rows_of(ROOT / "tests" / "rows" / "images.txt"):
            self.assertNotIsInstance(row, str, place)
            row, cases = row
            numbers = dict(zip((word[2:] for word in row.budget[::2]), map(int, row.budget[1::2])))
            for data, wanted in cases if len(cases) == 1 else ():
                if images.REFUSAL.fullmatch(wanted) or len(data) > 100_000:
                    continue
                with Image(data) as image, self.subTest(place=place):
                    budget = Budget(**{"fuel": 20_000, **numbers})
                    if budget.fuel <= 20_000:
                        with contextlib.suppress(ContextError):
                            context = Context(row.context)
                            self.same(image, context, budget)
                            context.close()
                            count += 1
        self.assertGreater(count, 100)

    @unittest.skipIf(sys.version_info < (3, 9), "tests/ needs a later Python")
    def test_rows_of_templates(self):
        import run as rows

        kinds = {"text": 0, Fault: 0, Spent: 0}
        for name in ("templates", "imports", "faults", "documents"):
            with tempfile.TemporaryDirectory() as folder:
                lines = rows.rows_of(None, ROOT / "tests" / "rows" / f"{name}.txt", folder)
                for at, (place, line, kind, _) in enumerate(lines):
                    room = pathlib.Path(folder, f"row{at}")
                    if kind == "templates" and "--" not in line and "⟨" not in line:
                        words = rows.furnished(room, line.partition(" => ")[0])[0]
                        context = (room / "context").read_bytes() if "context" in words else None
                        with self.subTest(place=place), contextlib.suppress(jt.Refused):
                            image = Templates.from_folder(room / "d").template("t").compile()
                            found = self.same(image, context, Budget(fuel=20_000))
                            kinds[found[0] if isinstance(found, tuple) else "text"] += 1
        self.assertGreater(min(kinds["text"] // 10, kinds[Fault]), 10, kinds)


class Deadlines(Holding):
    def test_a_run_is_stopped_at_its_deadline(self):
        image, context = endless(), Context()
        for timeout in (0.05, 0.2):
            for call in (image.run, image.run_report):
                with Elapsed() as elapsed, self.assertRaises(TimeoutError) as caught:
                    call(context, AMPLE, timeout=timeout)
                self.assertGreaterEqual(elapsed.seconds, timeout)
                self.assertLess(elapsed.seconds, timeout + LATE)
                used = caught.exception.used
                # (A machine that is busy may execute one slice alone.)
                self.assertGreater(used.fuel, 0)
                self.assertEqual(used.output, 0)
                self.assertEqual(str(caught.exception), f"timed out after {used}")
                self.assertIsInstance(caught.exception, builtins.TimeoutError)
                self.assertIsInstance(caught.exception, JtError)

    def test_a_deadline_on_another_thread(self):
        image = endless()

        def work():
            with Elapsed() as elapsed, self.assertRaises(TimeoutError):
                image.run(None, AMPLE, timeout=0.1)
            self.assertLess(elapsed.seconds, LATE)

        in_threads(3, work)

    def test_a_deadline_that_has_passed(self):
        image = Template("t", {"t": "a"}).compile()
        for timeout in (0, -1, -0.5):
            for call in (image.run, image.run_report, lambda **it: asyncio.run(image.arun(**it))):
                with self.assertRaises(TimeoutError) as caught:
                    call(timeout=timeout)
                self.assertEqual(caught.exception.used, Used(0, 0, 0, 0, 0))

    def test_a_run_that_ends_before_its_deadline(self):
        image = Template("t", {"t": ROWS}).compile()
        for n in (0, 3, 3000, 40_000):
            wanted = "".join(f"{i}," for i in range(n))
            for more in ({"timeout": 60}, {"cancel": threading.Event()}, {}):
                self.assertEqual(image.run({"n": n}, **more), wanted)
                self.assertEqual(image.run(b'{"n": %d}' % n, Budget(memory=10**7), **more), wanted)
                self.assertEqual(asyncio.run(image.arun({"n": n}, **more)), wanted)
                self.assertEqual(image.run_report({"n": n}, **more).text, wanted)

    def test_errors_under_a_deadline(self):
        for source, budget, kind in (
            (ROWS + "{{ nope + 1 }}", Budget(), Fault),
            (ROWS, Budget(fuel=900), Spent),
            (ROWS, Budget(output=700), Spent),
            (ROWS, Budget(memory=1_000), NoMemory),
        ):
            for n in (300, 8000):
                image = Template("t", {"t": source}).compile()
                found = [
                    outcome_of(lambda: call({"n": n}, budget, timeout=60))
                    for call in [image.run] * 3 + [lambda *a, **k: asyncio.run(image.arun(*a, **k))]
                ]
                alone = []
                in_threads(1, lambda: alone.append(outcome_of(lambda: image.run({"n": n}, budget))))
                self.assertEqual(found, alone * 4)
                self.assertIs(found[0][0], kind)

    def test_a_deadline_within_the_memory_of_a_budget(self):
        image = endless()
        with self.assertRaises(TimeoutError):
            image.run({}, Budget(fuel=2**60, memory=100_000), timeout=0.05)
        self.assertEqual(library.jt_memory_limit(jt._library.NO_LIMIT), jt._library.NO_LIMIT)

    def test_a_run_is_cancelled(self):
        image, stop = endless(), Soon()
        with Elapsed() as elapsed, self.assertRaises(Cancelled) as caught:
            image.run(None, AMPLE, cancel=stop)
        self.assertLess(elapsed.seconds, LATE)
        self.assertGreater(caught.exception.used.fuel, 0)
        self.assertEqual(str(caught.exception), f"cancelled after {caught.exception.used}")
        # it is set: no run begins
        with Counted() as counted, self.assertRaises(Cancelled):
            image.run(None, AMPLE, cancel=stop)
        self.assertEqual(counted.of("jt_image_run") + counted.of("jt_run_start"), 0)

    def test_threads_are_cancelled_together(self):
        image, stop = endless(), threading.Event()

        def work():
            with self.assertRaises(Cancelled):
                image.run(None, AMPLE, cancel=stop, timeout=60)

        threads = [Raising(target=work) for _ in range(4)]
        for thread in threads:
            thread.start()
        time.sleep(0.1)
        stop.set()
        with Elapsed() as elapsed:
            for thread in threads:
                thread.join(10)
        self.assertLess(elapsed.seconds, LATE)

    def test_the_errors_can_be_pickled(self):
        for error in (TimeoutError(Used(7, 8, 9, 6, 5)), Cancelled(Used(1, 2, 3, 4, 5))):
            for protocol in range(2, pickle.HIGHEST_PROTOCOL + 1):
                other = pickle.loads(pickle.dumps(error, protocol))
                self.assertEqual((type(other), vars(other)), (type(error), vars(error)))
                self.assertEqual(str(other), str(error))


class Signals(Holding):
    """What a signal does to a run of the main thread."""

    def interrupted(self, call):
        """Returns how many seconds after SIGINT a call raises `KeyboardInterrupt`."""
        sent = []

        def send():
            sent.append(time.monotonic())
            os.kill(os.getpid(), signal.SIGINT)

        before = signal.signal(signal.SIGINT, signal.default_int_handler)
        timer = threading.Timer(0.1, send)
        timer.start()
        try:
            with self.assertRaises(KeyboardInterrupt):
                call()
            return time.monotonic() - sent[0]
        finally:
            timer.join()
            signal.signal(signal.SIGINT, before)

    def test_an_interrupt_ends_a_run_at_once(self):
        image, template = endless(), Template("t", {"t": ENDLESS})
        calls = {
            "run": lambda: image.run(None, AMPLE),
            "render": lambda: template.render({}, AMPLE),
            "run with a deadline": lambda: image.run(None, AMPLE, timeout=60),
            "run with an event": lambda: image.run(None, AMPLE, cancel=threading.Event()),
            "run with memory": lambda: image.run({}, Budget(fuel=2**60, memory=10**6)),
            "run_report": lambda: image.run_report(None, AMPLE),
        }
        for name, call in calls.items():
            # (The machine may be busy: one of twenty has to be in time.)
            delays = []
            while len(delays) < 20 and not (delays and delays[-1] < 0.05):
                delays.append(self.interrupted(call))
            self.assertLess(min(delays), 0.05, f"{name}: {delays}")
        self.assertEqual(library.jt_memory_limit(jt._library.NO_LIMIT), jt._library.NO_LIMIT)

    def test_an_interrupt_ends_the_loop_of_asyncio(self):
        image = endless()
        self.assertLess(self.interrupted(lambda: asyncio.run(image.arun(None, AMPLE))), LATE)

    def test_a_handler_runs_while_a_run_goes_on(self):
        image, other = endless(), Template("t", {"t": ROWS}).compile()
        found, is_over = [], threading.Event()

        def render(*_):
            found.append(other.run({"n": 1}))
            if len(found) == 3:
                is_over.set()
            # (A signal that comes again by itself could come within this handler, if that is slow.)
            signal.setitimer(signal.ITIMER_REAL, 0.01)

        before = signal.signal(signal.SIGALRM, render)
        signal.setitimer(signal.ITIMER_REAL, 0.01)
        try:
            with self.assertRaises(Cancelled):
                image.run(None, AMPLE, cancel=is_over, timeout=60)
        finally:
            signal.setitimer(signal.ITIMER_REAL, 0)
            signal.signal(signal.SIGALRM, before)
        self.assertGreaterEqual(len(found), 3)
        self.assertEqual(set(found), {"0,"})


class Calls(Holding):
    """In how many calls of the library a run is made."""

    def test_a_short_run_is_one_call(self):
        image, context = Template("t", {"t": ROWS}).compile(), Context({"n": 100})
        for more in ({}, {"timeout": 60}, {"cancel": threading.Event()}):
            with Counted() as counted:
                for _ in range(5):
                    image.run(context, **more)
                self.assertEqual(counted.of("jt_image_run"), 5)
                self.assertEqual(counted.of("jt_run_start"), 0)
            self.assertEqual(counted.wrong, [])

    def test_a_run_elsewhere_is_one_call(self):
        image, context = Template("t", {"t": ROWS}).compile(), Context({"n": 20_000})
        with Counted() as counted:
            in_threads(1, lambda: image.run(context))
            self.assertEqual((counted.of("jt_image_run"), counted.of("jt_run_start")), (1, 0))

    def test_an_image_with_long_runs_is_in_slices_from_the_start(self):
        image, long, short = Template("t", {"t": ROWS}).compile(), {"n": 8000}, {"n": 1}
        with Counted() as counted:
            for _ in range(5):
                image.run(long)
            # the first one was tried in one call
            self.assertEqual((counted.of("jt_image_run"), counted.of("jt_run_start")), (1, 5))
            for _ in range(40):
                image.run(short)
            self.assertEqual((counted.of("jt_image_run"), counted.of("jt_run_start")), (25, 21))
            self.assertEqual(counted.wrong, [])


class Tasks(Holding):
    """Runs in a loop of asyncio."""

    def test_runs_take_turns(self):
        image, context = Template("t", {"t": ROWS}).compile(), Context({"n": 60_000})

        async def main():
            return await asyncio.gather(*[image.arun(context, AMPLE) for _ in range(3)])

        wanted = "".join(f"{i}," for i in range(60_000))
        self.assertEqual(asyncio.run(main()), [wanted] * 3)

    def test_other_tasks_have_their_turns(self):
        # The runs end only when they are cancelled, so the time that they take does not matter.
        image, turns = endless(), 30

        async def main():
            runs = [asyncio.create_task(image.arun(None, AMPLE)) for _ in range(3)]
            times = [time.monotonic()]
            for _ in range(turns):
                await asyncio.sleep(0.001)
                times.append(time.monotonic())
            for task in runs:
                self.assertFalse(task.done())
                task.cancel()
            ends = await asyncio.gather(*runs, return_exceptions=True)
            self.assertEqual([type(it) for it in ends], [asyncio.CancelledError] * 3)
            return times

        times = asyncio.run(main())
        self.assertLess(max(b - a for a, b in zip(times, times[1:])), LATE)

    def test_a_task_that_is_cancelled(self):
        image = endless()

        async def main():
            task = asyncio.create_task(image.arun(None, AMPLE))
            await asyncio.sleep(0.05)
            task.cancel()
            with self.assertRaises(asyncio.CancelledError):
                await task

        with Counted() as counted, Elapsed() as elapsed:
            asyncio.run(main())
            self.assertEqual(counted.of("jt_run_free"), 1)
        self.assertLess(elapsed.seconds, LATE)

    def test_wait_for(self):
        image = endless()

        async def main():
            with self.assertRaises(asyncio.TimeoutError):
                await asyncio.wait_for(image.arun(None, AMPLE), 0.2)

        with Elapsed() as elapsed:
            asyncio.run(main())
        self.assertLess(elapsed.seconds, LATE)

    def test_deadlines_and_events(self):
        image, stop = endless(), threading.Event()

        async def main():
            with self.assertRaises(TimeoutError):
                await image.arun(None, AMPLE, timeout=0.05)
            asyncio.get_running_loop().call_later(0.05, stop.set)
            with self.assertRaises(Cancelled):
                await image.arun(None, AMPLE, cancel=stop)
            event = asyncio.Event()
            asyncio.get_running_loop().call_later(0.05, event.set)
            with self.assertRaises(Cancelled):
                await image.arun(None, AMPLE, cancel=event)

        asyncio.run(main())

    def test_a_coroutine_that_nobody_ends(self):
        image = endless()

        async def main():
            task = image.arun(None, AMPLE)
            with contextlib.suppress(StopIteration):
                task.send(None)
            return task

        with Counted() as counted:
            task = asyncio.run(main())
            del task
            image.close()
            self.assertEqual(counted.left(), ([], {}, set()))

    def test_values_by_keywords(self):
        image = Template("t", {"t": "{{ name }}"}).compile()
        self.assertEqual(asyncio.run(image.arun(name="World")), "World")
        with image.start(name="a") as run:
            run.advance(100)
            self.assertEqual(run.outcome(), "a")
        self.assertEqual(image.run_report({"name": "a"}, name="b").text, "b")


class Uses(Holding):
    """What a run has used."""

    def least(self, image, context, name):
        """Returns the least number of a budget with which a run ends with its text."""
        low, high = 0, 255 if name == "nesting" else 1 << 20
        while low < high:
            middle = (low + high) // 2
            try:
                image.run(context, Budget(**{name: middle}))
                high = middle
            except Spent:
                low = middle + 1
        return low

    def test_the_least_budget_is_what_was_used(self):
        calls = "{% macro m(x) %}{% if x %}{{ m(x - 1) }}{% endif %}a{% endmacro %}{{ m(n) }}"
        lists = "{% set a = [[1, [n]], n] %}{% set b = {'k': a} %}{{ b.k[1] }}"
        given = "{% for x in n %}{{ x }}{% endfor %}"
        for source, n in (
            (ROWS, 0),
            (ROWS, 50),
            (calls, 0),
            (calls, 9),
            ("", 0),
            ("é" * 99, 0),
            (lists, 7),
            (given, ["a" * 40, "b"]),
            (given, [[]] * 0),
        ):
            image, context = Template("t", {"t": source}).compile(), Context({"n": n})
            report = image.run_report(context)
            self.assertEqual(report.text, image.run(context))
            for name in ("fuel", "output", "depth", "size", "nesting"):
                least = self.least(image, context, name)
                self.assertEqual(getattr(report.used, name), least, (name, source))

    def test_slices_use_what_one_call_uses(self):
        image, context = Template("t", {"t": ROWS}).compile(), Context({"n": 50})
        wanted = image.run_report(context).used
        for steps in SIZES:
            with image.start(context) as run:
                self.assertEqual(run.used, Used(0, 0, 0, 1, 0))
                before = 0
                while run.advance(steps):
                    self.assertGreaterEqual(run.used.fuel, before + steps)
                    before = run.used.fuel
                self.assertEqual(run.used, wanted)

    def test_what_is_tested_before_the_start(self):
        image = Template("t", {"t": "{{ a }}"}).compile()
        context = {"a": "x" * 9, "unnamed": [[["y" * 99]]]}
        with image.start(context) as run:
            self.assertEqual(run.used, Used(0, 0, 0, 10, 0))
        with image.start(context, Budget(size=9)) as run:
            self.assertEqual(run.used, Used(0, 0, 0, 0, 0))
        with image.start({"a": [["x"]]}) as run:
            self.assertEqual(run.used, Used(0, 0, 0, 4, 2))

    def test_the_report_of_an_error(self):
        image = Template("t", {"t": "abc{{ 1 // n }}"}).compile()
        report = image.run_report({"n": 0})
        self.assertIsInstance(report, Report)
        self.assertIsInstance(report.error, Fault)
        self.assertIsNone(report.error.__traceback__)
        self.assertEqual(report.outcome, report.error)
        self.assertEqual(report.used.output, 3)
        with self.assertRaises(Fault):
            report.text
        report = Template("t", {"t": ROWS}).compile().run_report({"n": 999}, Budget(fuel=100))
        self.assertEqual(report.error.name, "fuel")
        self.assertLessEqual(report.used.fuel, 100)
        self.assertGreater(report.used.fuel, 80)
        self.assertIsNone(image.run_report({"n": 1}).error)

    def test_a_report_is_a_value(self):
        report = Template("t", {"t": "{{ n }}"}).compile().run_report({"n": "é"})
        self.assertEqual(report, Report("é", report.used))
        self.assertEqual(pickle.loads(pickle.dumps(report)), report)
        used = "fuel 3021 depth 2 output 7306 size 864 nesting 3"
        self.assertEqual(str(Used(3021, 7306, 2, 864, 3)), used)


if __name__ == "__main__":
    unittest.main()
