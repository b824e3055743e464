"""Tests of many contexts in one call, and of the command `python -m jt`, by unittest."""
import asyncio
import concurrent.futures
import contextlib
import ctypes
import importlib.util
import functools
import itertools
import json
import multiprocessing
import os
import pathlib
import pickle
import signal
import subprocess
import sys
import tempfile
import threading
import time
import types
import unittest
import unittest.mock

import jt
from jt import (
    Budget,
    Context,
    ContextError,
    Fault,
    JtError,
    NoMemory,
    Refused,
    Result,
    Spent,
    Template,
)
from jt import _library
from jt._library import library

sys.path.append(str(pathlib.Path(__file__).resolve().parent))
from test_jt import Counted, Holding

ROOT = pathlib.Path(__file__).resolve().parents[2]
# The seconds by which threads and processes may end late, on a machine that is busy.
PATIENCE = 60
NUMBERS = _library.Numbers(10**6, 10**6, 64, 10**6, 32)
LOOPS = "".join(f"{{% for {name} in range(1000) %}}" for name in "abcdef") + "{% endfor %}" * 6


class Each(unittest.TestCase):
    """Many contexts in one call. `kinds` are the ways in which they run."""

    kinds = ({"workers": 1}, {"workers": 3}, {"workers": 3, "ordered": False})
    source = "{{ 12 // n }}{% for i in range(n) %}a{% endfor %}"

    def setUp(self):
        self.image = Template("t", {"t": self.source}).compile()

    def outcomes(self, contexts, budget=Budget(), **how):
        """Returns the outcomes by their indices."""
        results = list(self.image.run_each(contexts, budget, **how))
        if how.get("ordered", True):
            self.assertEqual([it.index for it in results], list(range(len(results))))
        found = {it.index: it.outcome for it in results}
        self.assertEqual(len(found), len(results))
        return [found[index] for index in range(len(found))]

    def alike(self, contexts, budget, **how):
        """Checks that each outcome is that of `run`."""
        found = self.outcomes(contexts, budget, **how)
        self.assertEqual(len(found), len(contexts))
        for context, outcome in zip(contexts, found):
            try:
                wanted = self.image.run(context, budget)
            except JtError as error:
                self.assertEqual(type(outcome), type(error))
                self.assertEqual((vars(outcome), str(outcome)), (vars(error), str(error)))
                self.assertIsNone(outcome.__traceback__)
                self.assertIsNone(outcome.__context__)
            else:
                self.assertEqual(outcome, wanted)

    def test_each_outcome_is_that_of_a_run(self):
        context = Context({"n": 6})
        contexts = [
            {"n": 5}, '{"n": 4}', b'{"n": 3}', context, None, {"n": 0}, {"n": 1.5}, {"n": {1}},
            '{"n": 1.5}', "[]", "{", b"\xff", "", "\ud800", [1], 7, {"n": -0},
            {"n": 2000}, '{"n": -0}', context, types.MappingProxyType({"n": 2}), {"n": 10**6},
        ]
        budgets = (Budget(fuel=60_000), Budget(output=1000), Budget(memory=4000), Budget(fuel=9))
        for how in self.kinds:
            for budget in budgets:
                self.alike(contexts * 4, budget, **how)
        self.alike(contexts * 4, budgets[2], workers=2, processes=True)

    def test_any_number_of_contexts(self):
        for count in (0, 1, 2, 63, 64, 65, 128, 1000):
            for how in self.kinds:
                contexts = ({"n": 1 + at % 9} for at in range(count))
                wanted = [str(12 // n) + "a" * n for n in (1 + at % 9 for at in range(count))]
                self.assertEqual(self.outcomes(contexts, **how), wanted)

    def test_texts_of_any_length(self):
        lengths = (0, 65_534, 65_535, 65_536, 0, 70_000, 3, 200_000, 1, 900_000, 900_000, 5)
        self.image = Template("t", {"t": "{{ 'é' }}{{ 'a' * n }}"}).compile()
        for how in self.kinds:
            found = self.outcomes([{"n": n} for n in lengths], Budget(fuel=10**9), **how)
            self.assertEqual(found, ["é" + "a" * n for n in lengths])

    def test_one_run_for_each_context(self):
        self.image = Template("t", {"t": "{{ 12 // n }}{{ 'a' * n }}"}).compile()
        runs = []
        call = library.jt_outcome_read

        def read(*given):
            runs.append(given[2])
            return call(*given)

        library.jt_outcome_read = read
        try:
            found = self.outcomes([{"n": n} for n in (1, 2, 70_000, 3, 70_001)], workers=1)
        finally:
            library.jt_outcome_read = call
        # the first long text is read from its outcome, and then the room suffices
        self.assertEqual([len(it) for it in found], [3, 3, 70_001, 4, 70_002])
        self.assertEqual(runs, [70_001])

    def test_slow_runs_share_no_call(self):
        call, seconds, counts = library.jt_image_run_each, [0.0], []
        contexts = [b"{\"n\": 1}"] * 64

        def made(*given):
            counts.append(given[4])
            seconds[0] += given[4] * each
            return call(*given)

        library.jt_image_run_each = made
        try:
            with unittest.mock.patch.object(_library.time, "monotonic", lambda: seconds[0]):
                for each, wanted in (
                    (0.1, [8] + [1] * 56),
                    (0.0099, [8] + [5] * 11 + [1]),
                    (0.0005, [8, 56]),
                    (0.0, [8, 56]),
                ):
                    counts.clear()
                    handle = self.image._take()
                    found = _library.run_each(handle, contexts, NUMBERS, None, ctypes.c_bool())
                    self.image._put_back(handle)
                    self.assertEqual((len(found), counts), (64, wanted))
        finally:
            library.jt_image_run_each = call

    def test_a_signal_waits_for_few_runs(self):
        if threading.current_thread() is not threading.main_thread():
            self.skipTest("signals reach the main thread alone")
        slow = Template("t", {"t": "{% for i in range(5000) %}{% endfor %}"}).compile()
        # As many runs as take some two seconds here, of which the signal comes after a tenth.
        begin, count = time.monotonic(), 0
        while time.monotonic() - begin < 0.5:
            count += sum(1 for _ in slow.run_each([{}] * 64, workers=1))
        seen = []
        before = signal.signal(signal.SIGALRM, lambda *_: seen.append(time.monotonic()))
        signal.setitimer(signal.ITIMER_REAL, 0.2)
        begin = time.monotonic()
        try:
            self.assertEqual(sum(1 for _ in slow.run_each([{}] * 4 * count, workers=1)), 4 * count)
            end = time.monotonic()
        finally:
            signal.setitimer(signal.ITIMER_REAL, 0)
            signal.signal(signal.SIGALRM, before)
        self.assertEqual(len(seen), 1)
        self.assertLess(seen[0] - begin, (end - begin) * 0.75)

    def test_a_context_may_change_when_it_is_read(self):
        def contexts():
            context = {}
            for n in range(1, 300):
                context["n"] = n
                yield context

        wanted = [self.image.run({"n": n}) for n in range(1, 300)]
        for how in self.kinds:
            self.assertEqual(self.outcomes(contexts(), **how), wanted)

    def test_what_the_contexts_raise_comes_after_their_results(self):
        def contexts():
            yield from [{"n": 1}] * 200
            raise KeyError("broken")

        for how in self.kinds:
            found = []
            with self.assertRaisesRegex(KeyError, "broken"):
                for result in self.image.run_each(contexts(), **how):
                    found.append(result.outcome)
            self.assertEqual(found, ["12a"] * 200)
            self.assertEqual(self.workers(), 0)

    def workers(self):
        return sum(thread.name.startswith("jt") for thread in threading.enumerate())

    def test_few_contexts_are_read_ahead(self):
        for how, most in zip(self.kinds, (64, 64 * 3 * 3, 64 * 3 * 3)):
            read = itertools.count()
            results = self.image.run_each(({"n": 1 + 0 * next(read)} for _ in range(10**9)), **how)
            for _ in range(5000):
                next(results)
            self.assertLessEqual(next(read), 5000 + most + 1)
            results.close()
            self.assertEqual(self.workers(), 0)

    def test_an_iterator_that_is_dropped_ends_its_threads(self):
        slow = Template("t", {"t": "{% for i in range(50000) %}{% endfor %}"}).compile()
        for drop in ("close", "del", "break", "throw", "cycle"):
            with Counted() as counted:
                results = slow.run_each(itertools.repeat({}), workers=3)
                next(results)
                self.assertEqual(self.workers(), 3)
                begin = time.monotonic()
                if drop == "close":
                    results.close()
                elif drop == "throw":
                    with self.assertRaises(KeyError):
                        results.throw(KeyError())
                elif drop == "break":
                    for _ in results:
                        break
                elif drop == "cycle":
                    cycle = [results]
                    cycle.append(cycle)
                results = cycle = None
                self.assertEqual(counted.left()[:2], ([], {}))
                self.assertEqual(self.workers(), 0)
                self.assertLess(time.monotonic() - begin, PATIENCE)

    def test_nothing_is_kept(self):
        with Counted() as counted:
            image = Template("t", {"t": self.source}).compile()
            for how in self.kinds:
                for result in image.run_each(({"n": n % 3} for n in range(999)), **how):
                    pass
            image.close()
            image = None
            self.assertEqual(counted.left(), ([], {}, set()))

    def test_what_is_closed_raises(self):
        closed = Context({"n": 1})
        closed.close()
        for how in self.kinds:
            with self.assertRaisesRegex(ValueError, "the context is closed"):
                self.outcomes([{"n": 1}, closed], **how)
            image = self.image.share()
            results = image.run_each(itertools.repeat({"n": 1}), **how)
            next(results)
            image.close()
            with self.assertRaisesRegex(ValueError, "the image is closed"):
                list(results)
            with self.assertRaisesRegex(ValueError, "the image is closed"):
                image.run_each([])

    def test_the_arguments(self):
        for given in ({"workers": 0}, {"workers": -1}):
            with self.assertRaises(ValueError):
                self.image.run_each([], **given)
        for given in ({"workers": "4"}, {"workers": True}, {"budget": None}, {"workers": 1.0}):
            with self.assertRaises(TypeError):
                self.image.run_each([], **given)
        self.assertEqual(list(self.image.run_each([])), [])

    def test_a_result(self):
        good, bad = Result(0, "a"), Result(7, Fault(2, "t", 3))
        self.assertEqual((good.text, good.error), ("a", None))
        self.assertEqual(bad.error, bad.outcome)
        with self.assertRaises(Fault) as caught:
            bad.text
        self.assertIs(caught.exception, bad.outcome)
        self.assertEqual(pickle.loads(pickle.dumps(good)), good)
        for outcome, wanted in (
            ('é"\n\u2028', {"text": 'é"\n\u2028'}),
            (Fault(2, "t", 3), {"fault": {"code": "F2", "name": "Undefined"}}),
            (Fault(5), {"fault": {"code": "F5", "name": "Unprintable"}}),
            (Spent("fuel"), {"spent": "fuel"}),
            (Refused("X1 NotJson"), {"refused": {"code": "X1", "name": "NotJson"}}),
            (ContextError("X3 NotWhole", "a.b", "a float"), {"refused": {"code": "X3"}}),
            (NoMemory(), {"no_memory": True}),
        ):
            line = Result(1, outcome).to_json()
            self.assertNotIn("\n", line)
            found, ((kind, value),) = json.loads(line), wanted.items()
            self.assertEqual(list(found), [kind])
            if isinstance(value, dict):
                self.assertEqual({**found[kind], **value}, found[kind])
            else:
                self.assertEqual(found, wanted)
        self.assertEqual(
            bad.to_json(),
            '{"fault":{"code":"F2","name":"Undefined","template":"t","line":3}}',
        )

    def test_many_are_run_in_a_thread_of_asyncio(self):
        if sys.version_info < (3, 9):
            self.skipTest("asyncio has no to_thread")

        async def texts(results):
            while batch := await asyncio.to_thread(lambda: list(itertools.islice(results, 50))):
                for result in batch:
                    yield result.text

        async def both():
            first = self.image.run_each(({"n": 1} for _ in range(120)), workers=2)
            other = asyncio.to_thread(self.image.run, {"n": 2})
            return [it async for it in texts(first)], await other

        found, other = asyncio.run(both())
        self.assertEqual((found, other), (["12a"] * 120, "6aa"))

    def test_a_process_that_dies_is_raised(self):
        results = self.image.run_each(
            itertools.repeat({"n": 1}), workers=2, processes=True
        )
        self.assertEqual(next(results).text, "12a")
        children = multiprocessing.active_children()
        self.assertEqual(len(children), 2)
        os.kill(children[0].pid, signal.SIGKILL)
        with self.assertRaises(concurrent.futures.BrokenExecutor):
            for result in results:
                self.assertEqual(result.text, "12a")
        self.assertEqual(multiprocessing.active_children(), [])

    def test_an_interrupt_ends_long_runs(self):
        if threading.current_thread() is not threading.main_thread():
            self.skipTest("signals reach the main thread alone")
        image = Template("t", {"t": LOOPS}).compile()
        for how in (*self.kinds, {"workers": 2, "processes": True}):
            results = image.run_each(itertools.repeat({}), Budget(fuel=2**60), **how)
            sent = []

            def send():
                sent.append(time.monotonic())
                os.kill(os.getpid(), signal.SIGINT)

            before = signal.signal(signal.SIGINT, signal.default_int_handler)
            timer = threading.Timer(2 if "processes" in how else 0.1, send)
            timer.start()
            try:
                with self.assertRaises(KeyboardInterrupt):
                    next(results)
            finally:
                timer.join()
                signal.signal(signal.SIGINT, before)
            # (The processes and threads have ended too. An endless run lasts for hours.)
            self.assertLess(time.monotonic() - sent[0], PATIENCE)
            self.assertEqual(self.workers(), 0)
            self.assertEqual(multiprocessing.active_children(), [])

    def test_a_long_run_is_made_once_in_slices(self):
        image = Template("t", {"t": "{% for i in range(n) %}a{% endfor %}"}).compile()
        contexts = [{"n": n} for n in (1, 20_000, 2, 30_000, {}, 3, 1.5, 4)]
        wanted = ["a" * n if isinstance(n, int) else None for n in (1, 20_000, 2, 30_000, {}, 3)]
        for how in self.kinds:
            for budget in (Budget(), Budget(memory=10**6)):
                results = sorted(image.run_each(contexts, budget, **how), key=lambda it: it.index)
                found = [it.outcome if it.error is None else None for it in results]
                self.assertEqual(found, [*wanted, None, "aaaa"])
                self.assertIsInstance(results[6].error, ContextError)
                self.assertIsNone(results[4].error and results[4].error.__traceback__)

    def test_a_forked_child_cannot_go_on(self):
        for how in ({"workers": 2}, {"workers": 2, "processes": True}):
            results = self.image.run_each(itertools.repeat({"n": 1}), **how)
            self.assertEqual(next(results).text, "12a")
            pid = os.fork()
            if pid == 0:
                status = 1
                try:
                    signal.signal(signal.SIGALRM, signal.SIG_DFL)
                    signal.alarm(20)
                    try:
                        for _ in results:
                            pass
                    except RuntimeError as error:
                        status = 0 if "parent" in str(error) else 2
                finally:
                    os._exit(status)
            self.assertEqual(os.waitpid(pid, 0)[1], 0)
            self.assertEqual(next(results).text, "12a")
            results.close()

    def test_processes_end_with_their_iterator(self):
        slow = Template("t", {"t": "{% for i in range(50000) %}{% endfor %}"}).compile()
        results = slow.run_each(itertools.repeat({}), workers=2, processes=True)
        next(results)
        begin = time.monotonic()
        results.close()
        self.assertEqual(multiprocessing.active_children(), [])
        self.assertLess(time.monotonic() - begin, PATIENCE)


class Memory(Holding):
    def test_nothing_is_held_after_many_contexts(self):
        source = "{{ 12 // n }}{% for i in range(n) %}a{% endfor %}"
        image = Template("t", {"t": source}).compile()
        contexts = [{"n": n} for n in (3, 0, 20_000, 1, [], 70_000, 2)] + ["{", {"n": 1.5}]
        for budget in (Budget(), Budget(memory=2_000), Budget(memory=10**7), Budget(output=9)):
            results = list(image.run_each(contexts * 9, budget, workers=1))
            self.assertEqual(len(results), len(contexts) * 9)
        # an iterator that is dropped, and one that an error of the contexts ends
        next(image.run_each(contexts, workers=1))
        with self.assertRaises(ZeroDivisionError):
            list(image.run_each((1 // 0 for _ in contexts), workers=1))


class Command(unittest.TestCase):
    """`python -m jt each`."""

    lines = (
        ('{"n": 2}', '{"text":"6a1é"}'),
        ('{"n": 0}', '{"fault":{"code":"F4","name":"ZeroDivide","template":"t","line":2}}'),
        ('{"n": 999999}', '{"spent":"fuel"}'),
        (
            '{"n": 1.5}',
            '{"refused":{"code":"X3","name":"NotWhole","path":"n","what":"a float"}}',
        ),
        ('{"n": -0}', '{"refused":{"code":"X3","name":"NotWhole"}}'),
        (
            "",
            '{"refused":{"code":"X1","name":"NotJson","path":"the context",'
            '"what":"Expecting value at line 1 column 1"}}',
        ),
        ('{"n": 3}\r', '{"text":"4a1a1é"}'),
    )

    def setUp(self):
        room = tempfile.TemporaryDirectory()
        self.addCleanup(room.cleanup)
        self.room = pathlib.Path(room.name)
        source = "\n{{ 12 // n }}{% for i in range(n - 1) %}a1{% endfor %}é"
        Template("t", {"t": source}).compile().save(self.room / "image")
        self.write("lines", *(line for line, _ in self.lines))
        self.write("good", *('{"n": 1}',) * 3000)

    def write(self, name, *lines):
        (self.room / name).write_text("".join(f"{line}\n" for line in lines), encoding="utf-8")

    def begin(self, *words, **more):
        command = [sys.executable, "-W", "ignore", "-m", "jt", "each", *words]
        settings = {**os.environ, "PYTHONWARNINGS": "ignore"}
        # (A shell that runs a script in the background lets it ignore the signal.)
        heeds = functools.partial(signal.signal, signal.SIGINT, signal.SIG_DFL)
        return subprocess.Popen(
            command, cwd=self.room, env=settings, stdout=subprocess.PIPE, preexec_fn=heeds,
            stderr=more.pop("stderr", subprocess.PIPE), **more,
        )

    def run_it(self, *words, given=None):
        with self.begin(*words, stdin=subprocess.PIPE) as running:
            out, said = running.communicate(given)
        return running.returncode, out.decode(), said.decode()

    def test_each_line_has_its_line(self):
        wanted = "".join(f"\n{line}"[1:] + "\n" for _, line in self.lines)
        wanted = wanted.replace('{"text":"', '{"text":"\\n')
        for more in (("--workers", "1"), ("--workers", "3"), ("--processes", "--workers", "2")):
            found = self.run_it("image", "lines", *more, "--fuel", "5000")
            self.assertEqual(found, (1, wanted, "jt: 5 of 7 lines are no text\n"))
        status, out, said = self.run_it("image", "-", given=b'{"n": 1}\n{"n": 1}')
        self.assertEqual((status, out, said), (0, '{"text":"\\n12é"}\n' * 2, ""))
        self.assertEqual(self.run_it("image", "-", given=b""), (0, "", ""))
        status, out, said = self.run_it("image", "good", "--memory", "16")
        self.assertEqual((status, out), (1, '{"no_memory":true}\n' * 3000))

    def test_it_goes_on_with_a_line(self):
        self.assertEqual(self.run_it("image", "good", "--out", "whole")[0], 0)
        whole = (self.room / "whole").read_bytes()
        self.assertEqual(whole.count(b"\n"), 3000)
        cut = whole[: len(whole) // 2 + 3]
        for words in (("--resume",), ("--from", "1000"), ("--from", "1"), ("--from", "7")):
            (self.room / "part").write_bytes(cut)
            found = self.run_it("image", "good", "--out", "part", *words)
            self.assertEqual(found, (0, "", ""))
            self.assertEqual((self.room / "part").read_bytes(), whole)
        self.assertEqual(self.run_it("image", "good", "--out", "part", "--resume"), (0, "", ""))
        self.assertEqual((self.room / "part").read_bytes(), whole)
        self.assertEqual(self.run_it("image", "good", "--out", "new", "--resume"), (0, "", ""))
        self.assertEqual((self.room / "new").read_bytes(), whole)
        status, out, _ = self.run_it("image", "lines", "--from", "7")
        self.assertEqual((status, out), (0, '{"text":"\\n4a1a1é"}\n'))
        (self.room / "part").write_bytes(cut)
        status, _, said = self.run_it("image", "good", "--out", "part", "--from", "2900")
        count = cut.count(b"\n")
        wanted = f"jt: part has {count} whole lines: go on with --from {count + 1}\n"
        self.assertEqual((status, said), (2, wanted))
        self.assertEqual((self.room / "part").read_bytes(), cut)

    def test_it_is_interrupted_and_goes_on(self):
        count, long = 600, "{% for i in range(n) %}a1{% endfor %}"
        Template("t", {"t": f"{long}{{% if is_last %}}{LOOPS}{{% endif %}}"}).compile().save(
            self.room / "image"
        )
        # (The run of the last lines is endless, so the signal comes before the end.)
        quick, endless = '{"n": 9000, "is_last": false}', '{"n": 0, "is_last": true}'
        self.write("slow", *(quick,) * 500, *(endless,) * (count - 500))
        words = ("image", "slow", "--out", "out", "--workers", "2", "--fuel", str(2**60))
        with self.begin(*words) as running:
            while not (self.room / "out").exists() or (self.room / "out").stat().st_size < 10**5:
                time.sleep(0.01)
            running.send_signal(signal.SIGINT)
            _, said = running.communicate()
        self.assertEqual(running.returncode, 130)
        wanted = '{"text":"' + "a1" * 9000 + '"}\n'
        done = (self.room / "out").read_text(encoding="utf-8")
        self.assertEqual(done, wanted * (len(done) // len(wanted)))
        # (A signal may come when a line is written and not counted yet: it is made again then.)
        first = len(done) // len(wanted) + 1
        said = said.decode().replace(f"--from {first - 1}\n", f"--from {first}\n")
        self.assertEqual(said, f"jt: interrupted: go on with --from {first}\n")
        self.write("slow", *(quick,) * count)
        self.assertEqual(self.run_it("image", "slow", "--out", "out", "--resume")[0], 0)
        self.assertEqual((self.room / "out").read_text(encoding="utf-8"), wanted * count)

    def test_no_process_outlives_a_killed_one(self):
        words = ("image", "-", "--out", "out", "--processes", "--workers", "2")
        with self.begin(*words, stdin=subprocess.PIPE) as running:
            running.stdin.write(b'{"n": 1}\n' * 20000)
            running.stdin.flush()
            while not (self.room / "out").exists() or not (self.room / "out").stat().st_size:
                time.sleep(0.01)
            task = pathlib.Path(f"/proc/{running.pid}/task/{running.pid}/children")
            children = [pathlib.Path("/proc", pid) for pid in task.read_text().split()]
            self.assertGreaterEqual(len(children), 2)
            running.kill()
            until = time.monotonic() + 60
            while any(map(self.lives, children)) and time.monotonic() < until:
                time.sleep(0.01)
            self.assertEqual(list(filter(self.lives, children)), [])

    @staticmethod
    def lives(process):
        """Returns whether a process runs. One that nobody waits for is dead."""
        try:
            return (process / "stat").read_text().rpartition(")")[2].split()[0] != "Z"
        except (FileNotFoundError, ProcessLookupError):
            return False

    def test_statuses(self):
        for status, said, words in (
            (2, "required", ()),
            (2, "invalid", ("image", "lines", "--from", "0")),
            (2, "invalid", ("image", "lines", "--workers", "x")),
            (2, "not allowed", ("image", "lines", "--from", "2", "--resume")),
            (2, "jt: --resume needs --out FILE", ("image", "lines", "--resume")),
            (2, "jt: fuel has to be from 0 to", ("image", "lines", "--fuel", "-1")),
            (3, "jt: refused I1 BadMagic", ("lines", "lines")),
            (5, "jt: file none: No such file", ("none", "lines")),
            (5, "jt: file none: No such file", ("image", "none")),
            (5, "jt: file .: Is a directory", ("image", "lines", "--out", ".")),
            (5, "jt: file /dev/full: No space", ("image", "lines", "--out", "/dev/full")),
        ):
            found = self.run_it(*words)
            self.assertEqual(found[0], status, (words, found))
            self.assertIn(said, found[2])
            self.assertNotIn("Traceback", found[2])
        self.assertEqual(self.run_it("--help")[0], 0)

    def test_a_reader_that_closes_its_end(self):
        with self.begin("image", "-", stdin=subprocess.PIPE) as running:
            running.stdout.close()
            with contextlib.suppress(BrokenPipeError):
                running.stdin.write(b'{"n": 1}\n' * 9000)
                running.stdin.close()
            said = running.stderr.read().decode()
        self.assertEqual((running.returncode, said), (5, "jt: file -: Broken pipe\n"))

    def test_the_bar_is_for_a_terminal(self):
        ours, theirs = os.openpty()
        with self.begin("image", "good", "--out", "out", stderr=theirs) as running:
            os.close(theirs)
            said = b""
            with contextlib.suppress(OSError):  # (as a terminal ends)
                while part := os.read(ours, 4096):
                    said += part
        os.close(ours)
        self.assertEqual(running.returncode, 0)
        last = said.decode().split("\r")[-2]
        self.assertRegex(last, r"\[#{30}\] 100% 3,000 lines, [\d,]+ in a second")


class Machines(unittest.TestCase):
    """The example of docs/cookbook.md for many machines, here in one process."""

    def test_dask(self):
        try:
            import dask
            import distributed  # noqa: F401
        except ImportError:
            self.skipTest("dask.distributed is not installed")
        path = pathlib.Path(__file__).resolve().parent / "dask_each.py"
        spec = importlib.util.spec_from_file_location("dask_each", path)
        dask_each = importlib.util.module_from_spec(spec)
        spec.loader.exec_module(dask_each)
        image = Template("t", {"t": "{{ 12 // n }}é"}).compile()
        lines = [f'{{"n": {n % 100}}}' for n in range(2000)]
        with tempfile.TemporaryDirectory() as folder:
            orders, out = pathlib.Path(folder) / "orders", pathlib.Path(folder) / "out"
            orders.write_text("".join(f"{line}\n" for line in lines))
            with dask.config.set(scheduler="synchronous"):
                files = dask_each.render(image, str(orders), str(out), part=3000)
            self.assertGreater(len(files), 5)
            self.assertEqual(sorted(files), sorted(map(str, out.iterdir())))
            found = "".join(pathlib.Path(it).read_text(encoding="utf-8") for it in sorted(files))
        results = image.run_each(lines, dask_each.BUDGET, workers=1)
        self.assertEqual(found, "".join(result.to_json() + "\n" for result in results))


if __name__ == "__main__":
    unittest.main()
