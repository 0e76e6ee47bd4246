"""What no script of examples/ shows of the package: lifetimes, exceptions, streams, threads and files."""
import gc
import io
import os
import sys
import tempfile
import threading
import unittest

sys.path.insert(0, os.path.dirname(os.path.dirname(os.path.abspath(__file__))))
import iolite  # noqa: E402
from iolite import BadAgg, BadFd, BadRange, Denied, NoFile, Refused, System  # noqa: E402

PAGE = 4096


class OnePool(unittest.TestCase):
    """A system of two domains, of which the first has a pool that both may read."""

    def setUp(self):
        self.system = System(chunks=16)
        self.one = self.system.domain(1)
        self.two = self.one.domain_new()
        self.pool = self.one.pool_create(2, [self.one, self.two])
        self.one.set_pool(self.pool)

    def tearDown(self):
        gc.collect()
        self.system.close()

    def buffers(self):
        return self.system.report().buffers


class Lifetimes(OnePool):
    def test_an_aggregate_is_dropped_when_it_is_gone(self):
        made = self.one.agg_make(b"x" * PAGE)
        self.assertEqual(self.buffers(), 1)
        del made
        self.assertEqual(self.buffers(), 0)

    def test_a_view_keeps_its_bytes(self):
        made = self.one.agg_make(b"first")
        tail = made.views()[0][1:]
        del made
        for _ in range(200):
            self.one.agg_make(b"x" * PAGE)
        self.assertEqual(bytes(tail), b"irst")
        self.assertTrue(tail.readonly)

    def test_a_view_keeps_its_bytes_when_the_aggregate_is_given_and_dropped(self):
        made = self.one.agg_make(b"first")
        view = made.views()[0]
        made.give(self.two).drop()
        for _ in range(200):
            self.one.agg_make(b"x" * PAGE)
        self.assertEqual(bytes(view), b"first")

    def test_nothing_ends_while_a_view_lives(self):
        view = self.one.agg_make(b"first").views()[0]
        with self.assertRaises(BufferError):
            self.system.close()
        with self.assertRaises(BufferError):
            self.one.exit()
        with self.assertRaises(BufferError):
            self.system._raw.step(12, 1, 1, 0, 0, 0, 0, 0)  # agg_drop, past the package's own care
        del view
        self.one.exit()
        self.assertEqual(self.buffers(), 0)

    def test_each_view_of_many_keeps_its_own_aggregate(self):
        first = self.one.agg_make(b"first")
        many = [first.dup() for _ in range(9000)]  # more than the lists in which the package has them
        views = [it.views()[0] for it in many]
        for number in range(0, len(many), 2):
            views[number] = None
        for number, it in enumerate(many[:40] + many[-40:]):
            if number % 2:
                with self.assertRaises(BufferError):
                    self.system._raw.step(12, 1, it.number, 0, 0, 0, 0, 0)
            else:
                it.drop()
        del many, it
        self.assertEqual({bytes(it) for it in views[1::2]}, {b"first"})
        del views
        first.drop()
        self.assertEqual(self.buffers(), 0)

    def test_a_closed_system_is_an_error(self):
        made = self.one.agg_make(b"x")
        self.system.close()
        self.system.close()
        with self.assertRaises(ValueError):
            made.dup()
        with self.assertRaises(ValueError):
            self.one.pipe()

    def test_what_is_given_up_is_not_used_again(self):
        made = self.one.agg_make(b"abc")
        first, second = made.split(1)
        self.assertEqual((bytes(first), bytes(second)), (b"a", b"bc"))
        with self.assertRaises(ValueError):
            made.dup()
        self.assertEqual(bytes(second.join(first)), b"bca")

    def test_a_refused_call_gives_nothing_up(self):
        made = self.one.agg_make(b"abc")
        with self.assertRaises(BadRange):
            made.split(4)
        self.assertEqual(bytes(made), b"abc")
        with self.assertRaises(BadAgg):
            made.join(made)
        self.assertEqual(bytes(made), b"abc")

    def test_many_parts_are_borrowed_in_order(self):
        joined = self.one.agg_make(b"0")
        for i in range(1, 30):
            joined = joined.join(self.one.agg_make(b"%d" % i))
        self.assertEqual(bytes(joined), b"".join(b"%d" % i for i in range(30)))
        self.assertEqual(len(joined.views()), 30)
        self.assertEqual(len(joined), 50)


class Refusals(OnePool):
    def test_each_is_an_exception_of_its_own(self):
        with self.assertRaises(BadFd) as caught:
            self.one.close(7)
        self.assertIsInstance(caught.exception, Refused)
        self.assertEqual(str(caught.exception), "BadFd")

    def test_those_that_python_has_are_those_too(self):
        with self.assertRaises(FileNotFoundError):
            self.one.open_file(b"none")
        read_end, _write_end = self.one.pipe()
        with self.assertRaises(BlockingIOError):
            self.one.read(read_end, 1)
        self.assertTrue(issubclass(iolite.Memory, MemoryError) and issubclass(NoFile, OSError))

    def test_the_pool_is_named(self):
        three = self.one.domain_new()
        with self.assertRaises(Denied) as caught:
            self.one.agg_make(b"x").give(three)
        self.assertEqual((caught.exception.about, str(caught.exception)), (self.pool, f"Denied pool {self.pool}"))

    def test_sizes_have_limits(self):
        for sizes in ({"chunks": 0}, {"chunks": 257}, {"generations": 0}, {"sums": 0}, {"sums": 65_537}):
            with self.assertRaises(BadRange):
                System(**sizes)

    def test_no_event_is_an_error(self):
        for kind in (28, 99, 106, 2**32 - 1):
            with self.assertRaises(iolite.BadEvent):
                self.system._raw.step(kind, 1, 0, 0, 0, 0, 0, 0)
        with self.assertRaises(iolite.BadEvent):
            self.system._raw.step(16, 1, 0, 0, 0, 0, 3, 0, b"name")  # open_file in mode 3
        with self.assertRaises(OverflowError):
            self.one.close(2**32)
        with self.assertRaises(iolite.SmallRoom):
            self.system._raw.step(25, 1, 0, 0, 0, 0, 9, 0, None, (), bytearray(8))  # read of 9 bytes


class Streams(OnePool):
    def test_a_pipe_by_raw_streams(self):
        read_end, write_end = self.one.pipe()
        with self.one.stream(write_end) as into, self.one.stream(read_end) as out:
            self.assertIsNone(out.read(1))  # it would block
            self.assertEqual(into.write(b"hello"), 5)
            self.assertEqual(out.read(3), b"hel")
            into.close()
            self.assertEqual(out.readall(), b"lo")
            self.assertEqual(out.read(1), b"")
        with self.assertRaises(BadFd):
            self.one.close(read_end)

    def test_a_pipe_is_full_at_its_limit(self):
        _read_end, write_end = self.one.pipe()
        stream = self.one.stream(write_end)
        self.assertEqual(stream.write(bytes(70_000)), 65_536)
        self.assertIsNone(stream.write(b"x"))

    def test_a_file_by_a_buffered_stream(self):
        self.one.file_new(b"notes", self.pool)
        fd = self.one.open_file(b"notes", "rw")
        with io.BufferedWriter(self.one.stream(fd)) as out:
            out.write(b"one\n" * 1000)
        fd = self.one.open_file(b"notes")
        self.assertEqual(self.one.length(fd), 4000)
        self.assertEqual(bytes(self.one.read(fd, 4000)), b"one\n" * 1000)

    def test_a_connection_by_descriptors(self):
        conn = self.system.conn_new(self.pool)
        read_end, write_end = os.pipe()
        os.write(write_end, b"request")
        self.assertEqual(self.system.arrive_from(conn, read_end, 4096), (7, False, False))
        fd = self.one.accept()
        self.one.write(fd, self.one.read(fd, 100))
        self.assertEqual(self.system.drain_to(conn, write_end, 100), (7, False))
        self.assertEqual(os.read(read_end, 100), b"request")
        os.close(write_end)
        self.assertEqual(self.system.arrive_from(conn, read_end, 4096), (0, True, False))
        os.close(read_end)
        self.assertEqual(self.system.arrive_from(conn, read_end, 4096), (0, False, True))


class Files(unittest.TestCase):
    def test_files_are_read_and_written_back(self):
        with tempfile.TemporaryFile() as file:
            file.write(b"stored")
            file.flush()
            with System(chunks=16, files=[file]) as system:
                one = system.domain(1)
                pool = one.pool_create(1, [one])
                one.set_pool(pool)
                one.file_new(b"name", pool)
                fd = one.open_file(b"name", "rw")
                before = one.read(fd, 100)
                one.seek(fd, 0)
                one.write_copy(fd, b"STO")
                self.assertEqual(bytes(before), b"stored")
                one.fsync(fd)
                del before
            file.seek(0)
            self.assertEqual(file.read(), b"STOred")


class Threads(OnePool):
    def on_another_thread(self, call):
        caught = []

        def run():
            try:
                call()
            except BaseException as error:
                caught.append(error)
        thread = threading.Thread(target=run)
        thread.start()
        thread.join()
        return caught

    def test_a_system_stays_on_its_thread(self):
        self.assertIsInstance(self.on_another_thread(self.one.pipe)[0], RuntimeError)

    def test_an_aggregate_may_go_on_another_thread(self):
        held = [self.one.agg_make(b"x")]
        self.assertEqual(self.on_another_thread(held.clear), [])
        self.assertEqual(self.buffers(), 0)


if __name__ == "__main__":
    unittest.main()
