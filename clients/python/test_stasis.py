#!/usr/bin/env python3
"""Tests of the client over the built program, and over programs that answer otherwise than it does.

    test_stasis.py [PROGRAM]      the program's file, and without a word the one that the gate or ./stasis has built
"""
import os
import pathlib
import sys
import tempfile
import threading
import unittest

HERE = pathlib.Path(__file__).resolve().parent
sys.dont_write_bytecode = True
sys.path.insert(0, str(HERE))
import stasis  # noqa: E402

PROGRAM = str(HERE.parent.parent / "crates" / "sg_main" / "out" / "sg_main")
# What takes longer than so many seconds hangs.
MOST = 120


class OverStore(unittest.TestCase):
    """Tests over a new store each."""

    def setUp(self):
        room = tempfile.TemporaryDirectory()
        self.addCleanup(room.cleanup)
        self.folder = os.path.join(room.name, "store")
        stasis.make(self.folder, PROGRAM)

    def open(self, **options):
        return stasis.Store(self.folder, PROGRAM, **options)


class Transactions(OverStore):
    def test_commit_and_abort(self):
        with self.open() as store:
            with store.transaction() as t:
                t.make_array("a", 3)
                self.assertEqual(t.push("a", b"abc"), 0)
                self.assertEqual(t.push("a", b"def"), 1)
            with self.assertRaises(KeyError):
                with store.transaction() as t:
                    t.set("a", 0, b"xyz")
                    self.assertEqual(t.get("a", 0), b"xyz")
                    raise KeyError
            with self.assertRaises(stasis.OutOfRange):
                with store.transaction() as t:
                    t.set("a", 1, b"uvw")
                    t.get("a", 2)
            store.flush()
        with self.open() as store:
            with store.transaction() as t:
                self.assertEqual([t.get("a", 0), t.get("a", 1), t.len("a")], [b"abc", b"def", 2])

    def test_refused_call_leaves_its_transaction(self):
        with self.open() as store:
            with store.transaction() as t:
                t.make_table("h")
                with self.assertRaises(stasis.Exists):
                    t.make_blob("h")
                t.put("h", b"k", b"v")
            with store.transaction() as t:
                self.assertEqual(t.find("h", b"k"), b"v")

    def test_marks(self):
        with self.open() as store:
            with store.transaction() as t:
                t.make_array("a", 1)
                t.push("a", b"x")
                with self.assertRaises(stasis.NoMark):
                    t.back_to(1)
                self.assertEqual([t.save() for _ in range(16)], list(range(1, 17)))
                with self.assertRaises(stasis.MarksFull):
                    t.save()
                t.set("a", 0, b"y")
                t.back_to(2)
                self.assertEqual([t.get("a", 0), t.save()], [b"x", 3])
            with store.transaction() as t:
                self.assertEqual(t.get("a", 0), b"x")

    def test_ended_within_the_block(self):
        with self.open() as store:
            with store.transaction() as t:
                t.make_array("a", 1)
                t.commit()
                self.assertFalse(t.live)
            with store.transaction() as t:
                t.push("a", b"x")
                t.abort()
            t = store.transaction("by_itself").begin()
            self.assertEqual(t.len("a"), 0)
            t.commit()

    def test_live_transactions_are_aborted_at_a_close(self):
        with self.open() as store:
            store.transaction().begin().make_table("h")
        with self.open() as store, store.transaction() as t:
            self.assertEqual(t.list(), [])

    def test_a_store_is_made_once(self):
        with self.assertRaises(stasis.Ended) as caught:
            stasis.make(self.folder, PROGRAM)
        self.assertEqual((caught.exception.status, caught.exception.text), (10, "stasis: store exists"))

    def test_no_store(self):
        with self.assertRaises(stasis.Ended) as caught:
            stasis.Store(self.folder + "-none", PROGRAM)
        self.assertEqual(caught.exception.status, 1)
        self.assertEqual(str(caught.exception), "stasis ended with status 1: stasis: not a store")

    def test_a_second_run_is_refused(self):
        with self.open() as store:
            with self.assertRaises(stasis.Ended) as caught:
                self.open()
            self.assertEqual(caught.exception.status, 4)
            store.flush()


class Values(OverStore):
    ALL = bytes(range(256))

    def test_every_byte(self):
        with self.open() as store:
            with store.transaction() as t:
                t.make_array("a", 1)
                t.make_table("h")
                t.make_blob("b")
                for byte in range(256):
                    self.assertEqual(t.push("a", bytes([byte])), byte)
                    self.assertTrue(t.put("h", bytes([byte]), bytes([255 - byte])))
                t.write("b", 0, self.ALL)
            with store.transaction() as t:
                self.assertEqual([t.get("a", byte) for byte in range(256)], [bytes([byte]) for byte in range(256)])
                self.assertEqual([t.find("h", bytes([byte])) for byte in range(256)], [bytes([255 - byte]) for byte in range(256)])
                self.assertEqual(t.keys("h"), [bytes([byte]) for byte in range(256)])
                self.assertEqual(t.read("b", 0, 256), self.ALL)

    def test_what_looks_like_a_word(self):
        words = [b"", b"x:", b"x:00", b"x:zz", b"none", b"ok", b"a b", b"a\nb", b"\r", b"# a", b"error disk", self.ALL * 4]
        with self.open() as store, store.transaction() as t:
            t.make_table("h")
            for number, word in enumerate(words):
                self.assertTrue(t.put("h", b"%d" % number, word))
                self.assertFalse(t.put("h", b"%d" % number, word))
            self.assertEqual([t.find("h", b"%d" % number) for number in range(len(words))], words)
            self.assertIsNone(t.find("h", b"none"))
            self.assertTrue(t.delete("h", b"4"))
            self.assertFalse(t.delete("h", b"4"))

    def test_the_longest_of_each(self):
        key, value, bytes_of_blob = b"\0" * 128, b"\xff" * 1024, b"\x80" * 8192
        with self.open() as store, store.transaction() as t:
            t.make_table("h")
            t.put("h", key, value)
            self.assertEqual((t.find("h", key), t.keys("h")), (value, [key]))
            t.make_blob("b")
            t.write("b", 0, bytes_of_blob)
            self.assertEqual((t.read("b", 0, 8192), t.len("b")), (bytes_of_blob, 8192))
            self.assertEqual(t.read("b", 8192, 0), b"")

    def test_operations(self):
        with self.open() as store, store.transaction() as t:
            t.make_array("a", 2)
            t.push("a", b"\xff\x00")
            t.apply("a", 0, stasis.ADD, b"\x02\x00")
            self.assertEqual(t.get("a", 0), b"\x01\x01")
            t.apply("a", 0, stasis.XOR, b"\x0f\xf0")
            self.assertEqual(t.get("a", 0), b"\x0e\xf1")
            t.apply("a", 0, stasis.ROTATE, b"\x01")
            self.assertEqual(t.pop("a"), b"\xf1\x0e")
            t.make_blob("b")
            t.size("b", 6)
            t.paint("b", 0, 4, stasis.FILL, b"Z")
            t.paint("b", 3, 3, stasis.RAMP, b"\x0a")
            self.assertEqual(t.read("b", 0, 6), b"ZZZ\x0d\x0e\x0f")
            t.drop("b")
            self.assertEqual(t.list(), ["a"])

    def test_what_no_line_says(self):
        with self.open() as store, store.transaction() as t:
            for call in (
                lambda: t.make_table("A"),
                lambda: t.make_table("a b"),
                lambda: t.make_table("a\n"),
                lambda: t.make_table("a" * 33),
                lambda: t.make_table(""),
                lambda: t.make_array("a", -1),
                lambda: t.make_array("a", 1 << 64),
                lambda: t.make_array("a", True),
                lambda: t.put("h", "k", b"v"),
                lambda: t.write("b", 0, bytes(20_000)),
                lambda: store.transaction("flush"),
                lambda: store.transaction("a" * 17),
                lambda: store.send(b"# nothing"),
                lambda: store.send(b"  "),
                lambda: store.send(b"t begin\nt commit"),
            ):
                with self.assertRaises(ValueError):
                    call()
            t.make_table("a" * 32)


class Refusals(OverStore):
    def refused(self, kind, call, *words):
        with self.assertRaises(kind) as caught:
            call(*words)
        self.assertIs(type(caught.exception), kind)
        return caught.exception

    def test_a_holder_is_named(self):
        with self.open() as store:
            with store.transaction() as t:
                t.make_array("a", 1)
                t.push("a", b"x")
            with store.transaction("first") as first, store.transaction("second") as second, store.transaction() as third:
                first.get("a", 0)
                second.get("a", 0)
                refusal = self.refused(stasis.Busy, third.set, "a", 0, b"y")
                self.assertEqual((refusal.holder, str(refusal)), ("first", "busy first"))
                first.abort()
                self.assertEqual(self.refused(stasis.Busy, third.set, "a", 0, b"y").holder, "second")
                second.commit()
                third.set("a", 0, b"y")

    def test_words_of_the_verbs(self):
        with self.open() as store, store.transaction() as t:
            t.make_array("a", 2)
            t.make_table("h")
            t.make_blob("b")
            t.push("a", b"ab")
            refused = self.refused
            refused(stasis.NoObject, t.len, "none")
            refused(stasis.WrongKind, t.len, "h")
            refused(stasis.Exists, t.make_table, "a")
            refused(stasis.OutOfRange, t.make_array, "z", 257)
            refused(stasis.OutOfRange, t.get, "a", 1)
            refused(stasis.OutOfRange, t.put, "h", b"", b"v")
            refused(stasis.NoOperation, t.apply, "a", 0, 9, b"")
            refused(stasis.Declined, t.push, "a", b"abc")
            refused(stasis.TooLong, t.put, "h", bytes(129), b"v")
            refused(stasis.TooLong, t.size, "b", 16_384_001)
            refused(stasis.Live, t.begin)
            refused(stasis.NoTransaction, store.transaction("other").commit)
            refused(stasis.Syntax, store.send(b"t frob").done)

    def test_no_bands_with_its_numbers(self):
        with self.open() as store, store.transaction() as t:
            for name in ("b", "c", "d"):
                t.make_blob(name)
            # A store has 1,024 bands, the first of which is set apart, and 16,384,000 bytes want 500.
            t.size("b", 16_384_000)
            t.size("c", 16_384_000)
            refusal = self.refused(stasis.NoBands, t.size, "d", 16_384_000)
            self.assertEqual((refusal.free, refusal.need, str(refusal)), (23, 500, "no-bands 23 500"))

    def test_locks_full(self):
        with self.open() as store, store.transaction() as t:
            t.make_table("h")
            refusal = None
            for number in range(5000):
                try:
                    t.find("h", b"%d" % number)
                except stasis.LocksFull as caught:
                    refusal = caught
                    break
            self.assertEqual(str(refusal), "locks-full")

    def test_64_at_a_time(self):
        with self.open() as store:
            with store.transaction() as t:
                t.make_table("h")
            live = [store.transaction().begin() for _ in range(64)]
            self.refused(stasis.TooManyLive, store.transaction().begin)
            for number, t in enumerate(live):
                t.put("h", b"%02d" % number, b"of %d" % number)
            for number, t in enumerate(live):
                t.commit() if number % 2 else t.abort()
            with store.transaction() as t:
                self.assertEqual(t.keys("h"), [b"%02d" % number for number in range(1, 64, 2)])
                self.assertEqual(t.find("h", b"63"), b"of 63")

    def test_a_disk_that_stops(self):
        """Runs over disks that make more and more calls, up to one that is done."""
        met = []
        while "nothing" not in met:
            self.assertLess(len(met), 1000)
            met.append(self.where_it_stops(len(met)))
        self.assertEqual(list(dict.fromkeys(met)), ["opening", "line", "end", "nothing"])

    def where_it_stops(self, calls):
        """Where a run over a new store, on a disk that makes so many calls, meets the stop."""
        folder = f"{self.folder}-{calls}"
        stasis.make(folder, PROGRAM)
        try:
            store = stasis.Store(folder, PROGRAM, stop_after=calls)
        except stasis.Ended as ended:
            self.assertEqual(ended.status, 4)
            return "opening"
        try:
            with store.transaction() as t:
                t.make_table("h")
            where = "end"
        except stasis.DiskFault:
            self.refused(stasis.Stopped, store.transaction().begin)
            where = "line"
        try:
            store.close()
        except stasis.Ended as ended:
            self.assertEqual((ended.status, ended.text), (4, "stasis: disk fault"))
            return where
        return "nothing"

    def test_words_of_replies(self):
        """The words that take long to come by, as the program writes them."""
        for line, kind in (("log-end", stasis.LogEnd), ("memory", stasis.OutOfMemory), ("too-many", stasis.TooMany), ("more", stasis.Refused)):
            refusal = stasis._refusal([b"error", line.encode()])
            self.assertIs(type(refusal), kind)
            self.assertEqual(str(refusal), line)
        refusal = stasis._refusal([b"error", b"no-space", b"2", b"1", b"2"])
        self.assertIs(type(refusal), stasis.NoSpace)
        self.assertEqual((refusal.free, refusal.reserved, refusal.need, str(refusal)), (2, 1, 2, "no-space 2 1 2"))
        self.assertIs(type(stasis._refusal([b"error", b"no-space", b"1"])), stasis.BadReply)


class Threads(OverStore):
    def test_each_thread_has_its_own(self):
        with self.open() as store:
            with store.transaction() as t:
                t.make_table("h")
            threads = [threading.Thread(target=self.put_all, args=(store, number)) for number in range(16)]
            for it in threads:
                it.start()
            for it in threads:
                it.join(MOST)
            with store.transaction() as t:
                self.assertEqual(len(t.keys("h")), 16 * 20)

    def put_all(self, store, number):
        for turn in range(20):
            with store.transaction() as t:
                t.put("h", b"%d %d" % (number, turn), b"v")


class Pipes(OverStore):
    def test_20000_lines(self):
        """Lines and replies that are many times what both pipes hold, sent before a reply is looked at."""
        value = b"\xff" * 1024
        with self.open() as store:
            with store.transaction() as t:
                t.make_table("h")
                t.put("h", b"k", value)
            t = store.transaction("t").begin()
            replies = [t.send(b"put" if turn % 2 else b"find", b"h", b"k", *[stasis._value(value)] * (turn % 2)) for turn in range(20_000)]
            for turn, reply in enumerate(replies):
                self.assertEqual(reply.words(), [b"replaced"] if turn % 2 else [stasis._value(value)])
            t.commit()

    def test_20000_lines_in_turn(self):
        with self.open() as store, store.transaction() as t:
            t.make_array("a", 8)
            for turn in range(20_000):
                item = turn.to_bytes(8, "little")
                if turn < 64:
                    t.push("a", item)
                else:
                    t.set("a", turn % 64, item)
            self.assertEqual(t.get("a", 31), (19_999).to_bytes(8, "little"))


class Ends(OverStore):
    def in_time(self, call):
        """Does a call that is to end, and returns what it raised."""
        raised = []

        def tries():
            try:
                call()
            except stasis.StasisError as error:
                raised.append(error)

        thread = threading.Thread(target=tries, daemon=True)
        thread.start()
        thread.join(MOST)
        self.assertFalse(thread.is_alive(), "it hangs")
        return raised[0] if raised else None

    def test_a_program_that_is_killed(self):
        store = self.open()
        with store.transaction() as t:
            t.make_array("a", 1)
            t.push("a", b"x")
        t = store.transaction().begin()
        t.push("a", b"y")
        store.process.kill()
        error = self.in_time(lambda: [t.get("a", 0) for _ in range(100)])
        self.assertIs(type(error), stasis.Ended)
        self.assertEqual((error.status, error.text), (-9, ""))
        self.assertIs(type(self.in_time(t.commit)), stasis.Ended)
        self.assertIs(type(self.in_time(store.flush)), stasis.Ended)
        self.assertIs(type(self.in_time(store.close)), stasis.Ended)
        self.assertIs(type(self.in_time(store.close)), stasis.Ended)
        with self.open() as store, store.transaction() as t:
            self.assertEqual((t.len("a"), t.get("a", 0)), (1, b"x"))

    def test_a_block_whose_program_is_killed(self):
        with self.assertRaises(stasis.Ended):
            with self.open() as store:
                with store.transaction() as t:
                    t.make_table("h")
                    store.process.kill()
        with self.assertRaises(KeyError):
            with self.open() as store:
                with store.transaction() as t:
                    store.process.kill()
                    raise KeyError

    def test_a_program_that_is_killed_while_lines_are_on_their_way(self):
        store = self.open()
        t = store.transaction().begin()
        t.make_table("h")
        replies = []
        killer = threading.Timer(0.2, store.process.kill)
        killer.start()

        def sends():
            while True:
                replies.append(t.send(b"put", b"h", b"k", b"v" * 1000))

        self.assertIs(type(self.in_time(sends)), stasis.Ended)
        self.assertIs(type(self.in_time(replies[-1].words)), stasis.Ended)
        self.assertIs(type(self.in_time(store.close)), stasis.Ended)

    def stand_in(self, text):
        """A program of these lines of Python in the place of `stasis`."""
        path = os.path.join(self.folder, "stand_in")
        with open(path, "w", encoding="utf-8") as file:
            file.write(f"#!{sys.executable}\nimport sys, time\n{text}")
        os.chmod(path, 0o755)
        return path

    def test_a_program_that_ends_at_once(self):
        program = self.stand_in("sys.exit('gone')")
        error = self.in_time(lambda: stasis.Store(self.folder, program))
        self.assertEqual((error.status, error.text), (1, "gone"))

    def test_a_program_that_ends_within_a_reply(self):
        program = self.stand_in(
            "sys.stdin.readline(); print('error syntax', flush=True); sys.stdin.readline(); print('ok 1', end='', flush=True); sys.exit(3)"
        )
        store = stasis.Store(self.folder, program)
        error = self.in_time(lambda: store.send(b"t len a").words())
        self.assertIs(type(error), stasis.Ended)
        self.assertIs(type(self.in_time(store.close)), stasis.Ended)

    def test_a_program_that_closes_its_input(self):
        program = self.stand_in("sys.stdin.readline(); print('error syntax', flush=True); sys.stdin.close(); time.sleep(1); sys.exit(6)")
        store = stasis.Store(self.folder, program)

        def sends():
            while True:
                store.send(b"t begin").done()

        self.assertEqual(self.in_time(sends).status, 6)
        self.assertEqual(self.in_time(store.close).status, 6)

    def test_an_answer_that_is_none(self):
        program = self.stand_in("sys.stdin.readline(); print('error syntax', flush=True); sys.stdin.readline(); print('yes', flush=True); sys.stdin.readline()")
        store = stasis.Store(self.folder, program)
        self.assertIs(type(self.in_time(lambda: store.send(b"t begin").done())), stasis.BadReply)
        store.close()

    def test_closed(self):
        store = self.open()
        store.close()
        self.assertEqual(self.in_time(store.flush).status, 0)
        store.close()


if __name__ == "__main__":
    if len(sys.argv) > 1:
        PROGRAM = os.path.abspath(sys.argv.pop(1))
    if not os.access(PROGRAM, os.X_OK):
        sys.exit(f"{PROGRAM} isn't built")
    unittest.main()
