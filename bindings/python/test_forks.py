"""Tests of forks, by unittest: a child renders as its parent does, and never waits for ever.

`JT_FORKS` is the number of forks beside rendering threads: 200 by default.
"""
import concurrent.futures
import multiprocessing
import os
import signal
import threading
import time
import unittest

from jt import Context, Template, Templates, _forks
from jt._library import library

FORKS = int(os.environ.get("JT_FORKS", "200"))
# A child that takes longer has hung.
SECONDS = 20
ROWS = "{% for i in range(n) %}{{ i }},{% endfor %}"


def child(work):
    """Forks, and returns the id of the child, whose status is 0 if `work` returns true."""
    pid = os.fork()
    if pid == 0:
        status = 3
        try:
            signal.signal(signal.SIGALRM, signal.SIG_DFL)
            signal.alarm(SECONDS)
            status = 0 if work() else 1
        finally:
            os._exit(status)
    return pid


def status_of(pid):
    """Waits for a child. A negative status is the signal that ended it."""
    status = os.waitpid(pid, 0)[1]
    return -os.WTERMSIG(status) if os.WIFSIGNALED(status) else os.WEXITSTATUS(status)


class Slow:
    """A call of the library that lasts until `go` is set, from when `begun` is set."""

    def __init__(self, name):
        self.name, self.call = name, getattr(library, name)
        self.begun, self.go = threading.Event(), threading.Event()

    def __enter__(self):
        setattr(library, self.name, self.made)
        return self

    def __exit__(self, *_):
        self.go.set()
        setattr(library, self.name, self.call)

    def made(self, *given):
        setattr(library, self.name, self.call)
        self.begun.set()
        self.go.wait(SECONDS)
        return self.call(*given)


def begun(work):
    """Starts a thread."""
    thread = threading.Thread(target=work, daemon=True)
    thread.start()
    return thread


class Forks(unittest.TestCase):
    def ends(self, work):
        """Checks that a child ends as it should."""
        self.assertEqual(status_of(child(work)), 0)

    def test_children_beside_rendering_threads(self):
        templates = Templates({"a": ROWS, "b": ROWS})
        image, context = templates["a"].compile(), Context({"n": 20})
        is_over, made = threading.Event(), [templates]

        def plain():
            while not is_over.is_set():
                image.run({"n": 20})
                image.run(context)

        def loading():
            while not is_over.is_set():
                made[0] = own = Templates({"a": ROWS, "b": ROWS})
                own["a"].render(context)
                own["b"].compile().share().close()
                self.assertTrue(image.share().data)

        def renders():
            found = [image.run({"n": 3}), templates["b"].render(n=3), made[0]["b"].render(n=3)]
            return set(found) == {"0,1,2,"} and image.run(context).endswith(",19,")

        threads = [begun(work) for work in (plain, plain, plain, loading)]
        try:
            for _ in range(FORKS):
                self.ends(renders)
        finally:
            is_over.set()
            for thread in threads:
                thread.join()

    def test_a_fork_waits_for_a_short_call(self):
        image = Template("t", {"t": ROWS}).compile()
        with Slow("jt_image_share") as slow:
            # (The call empties its handle for a moment.)
            thread = begun(image.share)
            slow.begun.wait(SECONDS)
            threading.Timer(0.1, slow.go.set).start()
            self.ends(lambda: image.share().run({"n": 2}) == "0,1,")
            self.assertTrue(slow.go.is_set())
            thread.join()

    def test_a_fork_waits_for_no_long_call(self):
        template = Template("t", {"t": ROWS})
        with Slow("jt_library_compile") as slow:
            thread = begun(template.compile)
            slow.begun.wait(SECONDS)
            self.ends(lambda: template.render({"n": 2}) == "0,1,")
            self.assertFalse(slow.go.is_set())
            slow.go.set()
            thread.join()
        self.assertEqual(template.render({"n": 2}), "0,1,")

    def test_a_fork_in_the_middle_of_a_run(self):
        image, context = Template("t", {"t": ROWS}).compile(), Context({"n": 2})
        for name in ("jt_image_run", "jt_context_load", "jt_outcome_free"):
            with Slow(name) as slow:
                thread = begun(lambda: image.run({"n": 2}))
                slow.begun.wait(SECONDS)
                self.ends(lambda: image.run({"n": 2}) + image.run(context) == "0,1,0,1,")
                slow.go.set()
                thread.join()

    def test_a_fork_in_a_section_of_its_own_thread(self):
        image = Template("t", {"t": ROWS}).compile()
        statuses = []
        before = signal.signal(
            signal.SIGUSR1,
            lambda *_: statuses.append(status_of(child(lambda: image.run({"n": 1}) == "0,"))),
        )
        try:
            with _forks.section:
                os.kill(os.getpid(), signal.SIGUSR1)
            thread = begun(lambda: statuses.append(len(image.run({"n": 1}))))
            thread.join(SECONDS)
        finally:
            signal.signal(signal.SIGUSR1, before)
        self.assertEqual(statuses, [0, 2])

    def test_a_section_that_does_not_end(self):
        image = Template("t", {"t": ROWS}).compile()
        inside, end = threading.Event(), threading.Event()

        def stay():
            with _forks.section:
                inside.set()
                end.wait(SECONDS)

        thread = begun(stay)
        inside.wait(SECONDS)
        try:
            self.ends(lambda: image.run({"n": 1}) == "0,")
        finally:
            end.set()
            thread.join()
        self.assertEqual(image.run({"n": 1}), "0,")

    def test_children_of_children(self):
        image, context = Template("t", {"t": ROWS}).compile(), Context({"n": 1})

        def again(levels):
            if levels:
                return status_of(child(lambda: again(levels - 1))) == 0
            return image.run(context) == "0,"

        self.ends(lambda: again(3))

    def test_a_child_has_threads(self):
        image, context = Template("t", {"t": ROWS}).compile(), Context({"n": 1})

        def work():
            with concurrent.futures.ThreadPoolExecutor(4) as pool:
                return set(pool.map(image.run, [context] * 100)) == {"0,"}

        threads = [begun(lambda: [image.run(context) for _ in range(1000)]) for _ in range(2)]
        for _ in range(20):
            self.ends(work)
        for thread in threads:
            thread.join()


class Servers(unittest.TestCase):
    """How servers fork: a parent reads templates, and its workers render."""

    def test_a_server_of_workers(self):
        """As gunicorn with `--preload`: workers are forked at any time, and those that die anew."""
        templates = Templates({"page": ROWS})
        image, context = templates["page"].compile(), Context({"n": 5})
        # (A thread of the parent, as of a collector of statistics, renders too.)
        is_over = threading.Event()

        def watch():
            while not is_over.is_set():
                image.run(context)

        def serve():
            wanted = "0,1,2,3,4,"
            return all(
                image.run(context) == wanted and templates["page"].render(n=5) == wanted
                for _ in range(200)
            )

        thread = begun(watch)
        try:
            workers = [child(serve) for _ in range(4)]
            for _ in range(20):
                self.assertEqual(status_of(workers.pop(0)), 0)
                workers.append(child(serve))
            self.assertEqual([status_of(pid) for pid in workers], [0] * 4)
        finally:
            is_over.set()
            thread.join()

    def test_a_pool_of_processes(self):
        """As Celery's prefork, whose parent has threads that hand out the tasks."""
        fork = multiprocessing.get_context("fork")
        image = Template("t", {"t": ROWS}).compile()
        self.assertEqual(image.run({"n": 1}), "0,")
        contexts = [{"n": n % 5} for n in range(200)]
        wanted = ["".join(f"{i}," for i in range(it["n"])) for it in contexts]
        for _ in range(3):
            with concurrent.futures.ProcessPoolExecutor(3, fork) as pool:
                self.assertEqual(list(pool.map(image.run, contexts, chunksize=10)), wanted)
        # each worker ends after some tasks, and another one is forked by a thread of the parent
        with fork.Pool(3, maxtasksperchild=5) as pool:
            self.assertEqual(pool.map(image.run, contexts, 1), wanted)


if __name__ == "__main__":
    unittest.main()
