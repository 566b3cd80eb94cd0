"""Tests of the package, against the library that FARMAP_LIBRARY names or that is in the package."""
import gc
import multiprocessing
import os
import random
import threading
import unittest

import farmap


def in_child(cache, queue):
    """What a map of the parent does in the child of a fork."""
    told = []
    for call in (lambda: cache[b"a"], lambda: cache.get(b"a"), lambda: len(cache), lambda: cache.put(b"a", b"2"), lambda: list(cache)):
        try:
            call()
            told.append("answered")
        except farmap.ForkedError:
            told.append("forked")
    cache.close()
    with farmap.open(memory="32m", threads=1) as own:
        own[b"b"] = b"3"
        told.append(own[b"b"])
    queue.put(told)


class Calls(unittest.TestCase):
    def setUp(self):
        self.map = farmap.open(memory="64m", threads=4)
        self.addCleanup(self.map.close)

    def test_a_mapping(self):
        cache = self.map
        self.assertEqual((len(cache), list(cache), b"a" in cache, cache.get(b"a"), cache.get(b"a", 7)), (0, [], False, None, 7))
        cache[b"a"] = b"1"
        cache[bytearray(b"b")] = memoryview(b"2")
        self.assertEqual(dict(cache), {b"a": b"1", b"b": b"2"})
        self.assertEqual((sorted(cache.values()), sorted(cache.items())), ([b"1", b"2"], [(b"a", b"1"), (b"b", b"2")]))
        self.assertTrue(b"a" in cache and "a" not in cache and (b"a", b"1") in cache.items())
        self.assertEqual(cache, {b"a": b"1", b"b": b"2"})
        del cache[b"a"]
        with self.assertRaises(KeyError):
            del cache[b"a"]
        with self.assertRaises(KeyError):
            cache[b"a"]
        self.assertEqual((cache.pop(b"b"), cache.pop(b"b", None)), (b"2", None))
        with self.assertRaises(KeyError):
            cache.pop(b"b")
        cache.update({b"%d" % i: b"x" * i for i in range(100)})
        self.assertEqual(len(cache), 100)
        key, value = cache.popitem()
        self.assertEqual(value, b"x" * int(key))
        cache.clear()
        self.assertEqual(len(cache), 0)
        with self.assertRaises(KeyError):
            cache.popitem()

    def test_calls(self):
        cache = self.map
        self.assertEqual([cache.put(b"a", b"1"), cache.put(b"a", b"2"), cache.put_new(b"a", b"3"), cache.put_new(b"b", b"")],
                         [None, b"1", b"2", None])
        self.assertEqual([cache.put_if(b"a", b"1", b"4"), cache.put_if(b"a", b"2", b"4"), cache.put_if(b"c", b"", b"")], [False, True, False])
        self.assertEqual([cache.remove_if(b"a", b"1"), cache.remove_if(b"a", b"4"), cache.setdefault(b"b", b"5"), cache.setdefault(b"c", b"6")],
                         [False, True, b"", b"6"])
        self.assertEqual(cache.get_many([b"a", b"b", b"c"]), [None, b"", b"6"])
        self.assertEqual(cache.get_many([]), [])
        self.assertEqual([cache.change(b"n", lambda old: b"%d" % (int(old or 0) + 1)) for _ in range(3)], [b"1", b"2", b"3"])
        stats = cache.stats()
        self.assertTrue(stats.pairs == 3 and stats.buckets > 0)
        every = bytes(range(256))
        cache[every] = every + b"\0"
        self.assertEqual(cache[every], every + b"\0")

    def test_errors(self):
        cache = self.map
        for key in ("text", 1, None):
            with self.assertRaises(TypeError):
                cache[key] = b""
        with self.assertRaises(farmap.TooLongError):
            cache[b"k" * 65536] = b""
        with self.assertRaises(farmap.TooLongError):
            cache[b"k"] = b"v" * (16 << 20)
        with self.assertRaises(farmap.OptionsError) as told:
            farmap.open(far="/nonexistent/folder")
        self.assertIn("/nonexistent/folder", str(told.exception))
        for words in ({"memory": "much"}, {"memory": 0}, {"memory": "1x"}, {"memory": "1k"}, {"threads": 1000}, {"pairs": -1}):
            with self.assertRaises(ValueError):
                farmap.open(**words)

    def test_a_full_map(self):
        with farmap.open(memory="8m", threads=1) as cache:
            with self.assertRaises(farmap.FullError):
                for i in range(1000):
                    cache[b"%d" % i] = b"x" * 100_000
            self.assertEqual(cache[b"0"], b"x" * 100_000)

    def test_sessions(self):
        with self.map.session() as session:
            session.set(b"a", b"1")
            self.assertEqual((session.get(b"a"), session.length(), session.take(b"a")), (b"1", 1, b"1"))
            with self.assertRaises(farmap.BusyError):
                self.map.close()
        with self.assertRaises(farmap.FarmapError):
            session.get(b"a")

    def test_the_end(self):
        cache = farmap.open(memory="32m", threads=2)
        cache[b"a"] = b"1"
        cache.close()
        cache.close()
        with self.assertRaises(farmap.ClosedError):
            cache[b"a"]
        for _ in range(20):
            farmap.open(memory="32m", threads=1)[b"a"] = b"1"
        gc.collect()


class Threads(unittest.TestCase):
    def test_counters(self):
        """More threads than sessions count in the same keys, over a map that is renewed and larger than its memory."""
        with farmap.open(memory="8m", far=[b"/var/tmp", "/tmp"], pairs=1000, threads=3, _names=40_000) as cache:
            faults = []

            def work(number):
                try:
                    for i in range(600):
                        cache.change(b"%d" % (i % 20), lambda old: b"%d" % (int(old or 0) + 1))
                        cache[b"own %d %d" % (number, i)] = b"%d " % number * 300
                        if cache[b"own %d %d" % (number, i // 2)] != b"%d " % number * 300:
                            raise AssertionError("another value")
                except BaseException as fault:
                    faults.append(fault)

            threads = [threading.Thread(target=work, args=[number]) for number in range(8)]
            for thread in threads:
                thread.start()
            for thread in threads:
                thread.join()
            self.assertEqual(faults, [])
            self.assertEqual([int(cache[b"%d" % i]) for i in range(20)], [8 * 30] * 20)
            self.assertEqual(len(cache), 20 + 8 * 600)

    def test_an_oracle(self):
        with farmap.open(memory="16m", far="/var/tmp", pairs=500, threads=1, handshake=True) as cache:
            draw, oracle = random.Random(3), {}
            for _ in range(5000):
                key = b"%d" % draw.randrange(300)
                what = draw.randrange(5)
                if what == 0:
                    oracle[key] = cache[key] = draw.randbytes(draw.randrange(2000))
                elif what == 1:
                    self.assertEqual(cache.pop(key, None), oracle.pop(key, None))
                else:
                    self.assertEqual(cache.get(key), oracle.get(key))
            self.assertEqual(dict(cache), oracle)


class Forks(unittest.TestCase):
    def test_multiprocessing(self):
        with farmap.open(memory="32m", threads=2) as cache:
            cache[b"a"] = b"1"
            context = multiprocessing.get_context("fork")
            queue = context.Queue()
            with cache.session():
                # (a session that another thread has at the fork is never given back in the child)
                child = context.Process(target=in_child, args=[cache, queue])
                child.start()
                told = queue.get(timeout=60)
                child.join(60)
            self.assertEqual((told, child.exitcode), (["forked"] * 5 + [b"3"], 0))
            self.assertEqual(cache[b"a"], b"1")

    def test_the_end_of_a_child(self):
        with farmap.open(memory="32m", threads=2) as cache:
            cache[b"a"] = b"1"
            child = os.fork()
            if not child:
                del cache
                gc.collect()
                os._exit(0)
            self.assertEqual(os.waitpid(child, 0)[1], 0)
            self.assertEqual(cache[b"a"], b"1")


if __name__ == "__main__":
    unittest.main()
