"""A client of the program `stasis`: transactions over a store in a folder, from Python.

It starts `stasis run DIR` and speaks lines over its pipes, on the standard library alone:

    import stasis

    stasis.make("mail")                                # once: `stasis init mail`
    with stasis.Store("mail") as store:
        with store.transaction() as t:                 # commits at the end, and aborts where an exception comes
            t.make_table("box")
            t.put("box", b"1", b"hello")
        with store.transaction() as t:
            print(t.find("box", b"1"))                 # b'hello'

Where a `with` of a transaction ends without an exception, its commit has been answered: what it did is durable. Names are `str`, values and keys are
`bytes` and may hold any bytes, and sizes, places, counts and codes are `int`. What the program refuses is an exception, one class for each
word: `Busy` says who is in the way, `NoSpace` and `NoBands` their numbers. A refused call has changed nothing, and its transaction goes on: catch the
exception within the `with` to go on with it. After `DiskFault`, and `LogEnd` of a commit, an abort or `back_to`, the store has stopped: close it. Where the program
has ended, each call raises `Ended`, with its status.

Nothing waits for another transaction: what one holds is `Busy` to the others until it ends, so a caller that meets it aborts and begins again,
or waits. One store serves several threads, each with transactions of its own; one transaction is one thread's.
"""

import collections
import os
import re
import subprocess
import threading

__all__ = [
    "make",
    "Store",
    "Transaction",
    "Reply",
    "StasisError",
    "Ended",
    "BadReply",
    "Refused",
    "Busy",
    "Syntax",
    "Stopped",
    "NoTransaction",
    "Live",
    "TooManyLive",
    "NoMark",
    "MarksFull",
    "LocksFull",
    "NoObject",
    "WrongKind",
    "Exists",
    "OutOfRange",
    "NoOperation",
    "Declined",
    "TooLong",
    "TooMany",
    "NoSpace",
    "NoBands",
    "LogEnd",
    "OutOfMemory",
    "DiskFault",
]

ADD, XOR, ROTATE = 1, 2, 3
"""The program's record operations, for `Transaction.apply`."""

FILL, RAMP = 1, 2
"""The program's range operations, for `Transaction.paint`."""


class StasisError(Exception):
    """What this module raises, but for `ValueError` where a name or a number isn't one that a line can say."""


class Ended(StasisError):
    """The program has ended. `status` is its exit status, and negative where a signal ended it; `text` is what it said on standard error."""

    def __init__(self, status, text):
        super().__init__(status, text)
        self.status = status
        self.text = text

    def __str__(self):
        return f"stasis ended with status {self.status}: {self.text or 'it said nothing'}"


class BadReply(StasisError):
    """The program answered a line with what is no answer to it."""


class Refused(StasisError):
    """A line was refused. `word` says why, and `numbers` are those that stand behind it."""

    word = None

    def __init__(self, word, *numbers):
        super().__init__(word, *numbers)
        self.word = word
        self.numbers = numbers

    def __str__(self):
        return " ".join([self.word, *map(str, self.numbers)])


class Busy(Refused):
    """Another live transaction holds something in conflict. `holder` is its name: of several, of the one that began first."""

    word = "busy"

    def __init__(self, holder):
        super().__init__("busy")
        self.holder = holder
        self.args = ("busy", holder)

    def __str__(self):
        return f"busy {self.holder}"


class Syntax(Refused):
    """The line says nothing known."""

    word = "syntax"


class Stopped(Refused):
    """The store has stopped in an earlier line: after a fault of the disk, or at the log's end. Close it."""

    word = "stopped"


class NoTransaction(Refused):
    """No live transaction has this name."""

    word = "no-transaction"


class Live(Refused):
    """A live transaction has this name."""

    word = "live"


class TooManyLive(Refused):
    """64 transactions are live."""

    word = "too-many-live"


class NoMark(Refused):
    """The transaction keeps no mark with this number."""

    word = "no-mark"


class MarksFull(Refused):
    """The transaction keeps 16 marks."""

    word = "marks-full"


class LocksFull(Refused):
    """More than 4,096 pairs of a transaction and what it touches would be held."""

    word = "locks-full"


class NoObject(Refused):
    """No object has this name."""

    word = "no-object"


class WrongKind(Refused):
    """The object isn't of a kind that does this."""

    word = "wrong-kind"


class Exists(Refused):
    """An object has this name."""

    word = "exists"


class OutOfRange(Refused):
    """An index, a place, a size or a key isn't in its range."""

    word = "out-of-range"


class NoOperation(Refused):
    """No operation of this kind has the code."""

    word = "no-operation"


class Declined(Refused):
    """The value isn't of the items' size, or the operation doesn't accept the item and the argument."""

    word = "declined"


class TooLong(Refused):
    """A key, a value, an argument, a range or a length is longer than it may be."""

    word = "too-long"


class TooMany(Refused):
    """The array has as many items as an array may have."""

    word = "too-many"


class NoSpace(Refused):
    """`need` pages are needed beside the `reserved` ones, and `free` are free."""

    word = "no-space"

    def __init__(self, word, free, reserved, need):
        super().__init__(word, free, reserved, need)
        self.free, self.reserved, self.need = free, reserved, need


class NoBands(Refused):
    """`need` bands are needed, and `free` are free."""

    word = "no-bands"

    def __init__(self, word, free, need):
        super().__init__(word, free, need)
        self.free, self.need = free, need


class LogEnd(Refused):
    """The log has no room."""

    word = "log-end"


class OutOfMemory(Refused):
    """The program had no memory for a list of keys or names. The transaction goes on."""

    word = "memory"


class DiskFault(Refused):
    """A call of the disk failed in this line. The store has stopped: what it was told of a commit in this line may be durable or not."""

    word = "disk"


_REFUSALS = {
    it.word: it
    for it in (
        Syntax,
        Stopped,
        NoTransaction,
        Live,
        TooManyLive,
        NoMark,
        MarksFull,
        LocksFull,
        NoObject,
        WrongKind,
        Exists,
        OutOfRange,
        NoOperation,
        Declined,
        TooLong,
        TooMany,
        NoSpace,
        NoBands,
        LogEnd,
        OutOfMemory,
        DiskFault,
    )
}

_NAME = re.compile(r"[a-z][a-z0-9_]*")
_DECIMAL = re.compile(rb"[0-9]{1,20}")


def _name(name, most=32):
    """The word of a name, which has 1 to `most` bytes of `a` to `z`, `0` to `9` and `_`, the first a letter."""
    if not isinstance(name, str) or not _NAME.fullmatch(name) or len(name) > most:
        raise ValueError(f"no name of 1 to {most} of a-z, 0-9 and _, the first a letter: {name!r}")
    return name.encode()


def _transaction_name(name):
    """The word of a transaction's name: one of the lines' own words is none."""
    if name in ("flush", "checkpoint", "truncate"):
        raise ValueError(f"no name of a transaction: {name!r}")
    return _name(name, 16)


def _number(number):
    """The word of a number from 0 to 2^64 - 1."""
    if isinstance(number, bool) or not isinstance(number, int) or not 0 <= number < 1 << 64:
        raise ValueError(f"no number from 0 to 2^64 - 1: {number!r}")
    return b"%d" % number


def _value(value):
    """The word of a value: itself where it can stand for itself, and else its bytes in hexadecimal digits."""
    if not isinstance(value, (bytes, bytearray, memoryview)):
        raise ValueError(f"no bytes: {value!r}")
    value = bytes(value)
    if value and all(0x21 <= byte <= 0x7E for byte in value) and not value.startswith(b"x:"):
        return value
    return b"x:" + value.hex().encode()


def _bytes_of(word):
    """The value that a word of a reply stands for."""
    if not word.startswith(b"x:"):
        return word
    try:
        return bytes.fromhex(word[2:].decode("ascii"))
    except ValueError:
        raise BadReply(word) from None


def _count_of(word):
    """The number that a word of a reply is."""
    if not _DECIMAL.fullmatch(word):
        raise BadReply(word)
    return int(word)


def _refusal(words):
    """The exception for a reply that is a refusal, or None for another reply."""
    if words[0] == b"busy" and len(words) == 2:
        return Busy(words[1].decode())
    if words[0] != b"error" or len(words) < 2:
        return None
    word, numbers = words[1].decode(), [_count_of(it) for it in words[2:]]
    try:
        return _REFUSALS.get(word, Refused)(word, *numbers)
    except TypeError:
        return BadReply(b" ".join(words))


class Reply:
    """The reply to a line that was sent, which may not have come yet."""

    def __init__(self):
        self._come = threading.Event()
        self._words = None
        self._fault = None

    def _gets(self, words=None, fault=None):
        self._words, self._fault = words, fault
        self._come.set()

    def words(self):
        """Waits for the reply and returns the words behind its `ok`, or None where it is `none`. Raises what was refused, and `Ended`
        where the program ended before it replied."""
        self._come.wait()
        if self._fault is not None:
            raise self._fault
        refusal = _refusal(self._words)
        if refusal is not None:
            raise refusal
        if self._words == [b"none"]:
            return None
        if self._words[0] != b"ok":
            raise self._unknown()
        return self._words[1:]

    def done(self):
        """Waits for a reply that is `ok` alone."""
        if self.words() != []:
            raise self._unknown()

    def word(self):
        """Waits for a reply with one word, and returns that."""
        words = self.words()
        if words is None or len(words) != 1:
            raise self._unknown()
        return words[0]

    def word_if_any(self):
        """Waits for a reply with one word, and returns that, or None where the reply is `none`."""
        return None if self.words() is None else self.word()

    def is_any(self):
        """Waits for a reply that is `ok` alone, or `none`, and returns whether it is the first."""
        if self.words() is None:
            return False
        self.done()
        return True

    def listed(self):
        """Waits for a reply with a count and so many words, and returns these."""
        words = self.words()
        if not words or _count_of(words[0]) != len(words) - 1:
            raise self._unknown()
        return words[1:]

    def _unknown(self):
        return BadReply(b" ".join(self._words))


class Transaction:
    """A transaction of a store. In a `with` it begins where the block begins, commits where the block ends, and aborts where an exception ends it.

    Each call sends one line, waits for its reply, and raises what was refused. `live` says whether it has begun and neither committed nor aborted.
    """

    def __init__(self, store, name):
        self.name = name
        self.live = False
        self._store = store
        self._word = _transaction_name(name)

    def __enter__(self):
        return self.begin()

    def __exit__(self, kind, error, trace):
        if not self.live:
            return
        if kind is None:
            self.commit()
            return
        try:
            self.abort()
        except StasisError:
            # The exception that ended the block says more. A store that can't abort has stopped or ended, and takes this back where it is opened.
            pass

    def send(self, verb, *words):
        """Sends a line of this transaction, and returns its reply without waiting for it. The words are those of the line, as bytes."""
        return self._store.send(b" ".join([self._word, verb, *words]))

    def begin(self):
        """Begins, and returns itself."""
        self.send(b"begin").done()
        self.live = True
        return self

    def commit(self):
        """Makes durable what it did. Where this raises `Ended` or `DiskFault`, what it did is there as a whole or not at all once the store is opened again."""
        try:
            self.send(b"commit").done()
        finally:
            self.live = False

    def abort(self):
        """Takes back what it did."""
        try:
            self.send(b"abort").done()
        finally:
            self.live = False

    def save(self):
        """Sets a mark, of which 16 are kept at most, and returns its number: the first is 1."""
        return _count_of(self.send(b"save").word())

    def back_to(self, mark):
        """Takes back what it did behind the mark with this number, and forgets the marks above it. What it holds it goes on to hold."""
        self.send(b"back", _number(mark)).done()

    def make_array(self, name, size):
        """Makes an array of items of `size` bytes, 1 to 256."""
        self.send(b"make", b"array", _name(name), _number(size)).done()

    def make_table(self, name):
        """Makes an empty table."""
        self.send(b"make", b"table", _name(name)).done()

    def make_blob(self, name):
        """Makes an empty blob."""
        self.send(b"make", b"blob", _name(name)).done()

    def drop(self, name):
        """Drops an object."""
        self.send(b"drop", _name(name)).done()

    def list(self):
        """Returns the names of all objects, by their bytes."""
        return [it.decode() for it in self.send(b"list").listed()]

    def push(self, name, item):
        """Puts an item behind those of an array, and returns its index."""
        return _count_of(self.send(b"push", _name(name), _value(item)).word())

    def pop(self, name):
        """Takes the last item off an array, and returns it."""
        return _bytes_of(self.send(b"pop", _name(name)).word())

    def set(self, name, index, item):
        """Replaces an item of an array."""
        self.send(b"set", _name(name), _number(index), _value(item)).done()

    def get(self, name, index):
        """Returns an item of an array."""
        return _bytes_of(self.send(b"get", _name(name), _number(index)).word())

    def len(self, name):
        """Returns how many items an array has, or how many bytes a blob."""
        return _count_of(self.send(b"len", _name(name)).word())

    def apply(self, name, index, code, argument):
        """Does the record operation with this code to an item of an array."""
        self.send(b"apply", _name(name), _number(index), _number(code), _value(argument)).done()

    def put(self, name, key, value):
        """Gives a key of a table a value. Returns whether the key is new."""
        word = self.send(b"put", _name(name), _value(key), _value(value)).word()
        if word not in (b"new", b"replaced"):
            raise BadReply(word)
        return word == b"new"

    def delete(self, name, key):
        """Takes a key off a table. Returns whether it was there."""
        return self.send(b"del", _name(name), _value(key)).is_any()

    def find(self, name, key):
        """Returns the value of a key of a table, or None where it isn't there."""
        word = self.send(b"find", _name(name), _value(key)).word_if_any()
        return None if word is None else _bytes_of(word)

    def keys(self, name):
        """Returns the keys of a table, by their bytes."""
        return [_bytes_of(it) for it in self.send(b"keys", _name(name)).listed()]

    def write(self, name, at, value):
        """Places bytes in a blob, at most 8,192, whose length rises where it must."""
        self.send(b"write", _name(name), _number(at), _value(value)).done()

    def read(self, name, at, count):
        """Returns `count` bytes of a blob, at most 8,192."""
        return _bytes_of(self.send(b"read", _name(name), _number(at), _number(count)).word())

    def size(self, name, length):
        """Gives a blob a length. Bytes that it gains are 0."""
        self.send(b"size", _name(name), _number(length)).done()

    def paint(self, name, at, count, code, argument):
        """Gives a range of a blob the bytes of the range operation with this code."""
        self.send(b"paint", _name(name), _number(at), _number(count), _number(code), _value(argument)).done()


class Store:
    """A store in a folder, over a run of the program that ends with it.

    `folder` has a store, as `make` leaves it, and `program` is the program's file, or its name on the path. The constructor returns once the store
    is open, and raises `Ended` where it can't be: the status says why. `stop_after` is for tests: the disk makes so many calls at most.

    `with Store(..) as store:` closes it at the end. Without a `close` the program goes on until this process ends, and where this one was forked,
    until each fork has ended.
    """

    def __init__(self, folder, program="stasis", stop_after=None):
        words = [program, "run", _folder_word(folder)]
        if stop_after is not None:
            words += ["--stop-after", str(stop_after)]
        # A session of its own, so that an interrupt at the terminal comes to this process alone, which then closes the store.
        self.process = subprocess.Popen(
            words, stdin=subprocess.PIPE, stdout=subprocess.PIPE, stderr=subprocess.PIPE, start_new_session=True
        )
        self._sending = threading.Lock()
        self._waiting = collections.deque()
        self._ended = None
        self._named = 0
        self._reader = threading.Thread(target=self._read, daemon=True)
        self._reader.start()
        self._wait_until_open()

    def _wait_until_open(self):
        """A line that says nothing known changes nothing, and is answered as soon as the store is open."""
        try:
            self.send(b"?").done()
        except Syntax:
            pass
        except Ended:
            self._let_go()
            raise

    def __enter__(self):
        return self

    def __exit__(self, kind, error, trace):
        try:
            self.close()
        except Ended:
            # An exception that ended the block says more.
            if kind is None:
                raise

    def _read(self):
        """Gives each line that was sent its reply as it comes, and at the program's end those that are left an `Ended`."""
        for line in self.process.stdout:
            # What a program that was ended wrote of a reply is none, and so is a reply to no line.
            if not line.endswith(b"\n") or not self._waiting:
                self.process.kill()
                break
            self._waiting.popleft()._gets(words=line[:-1].split(b" "))
        text = self.process.stderr.read().decode(errors="replace").strip()
        status = self.process.wait()
        with self._sending:
            self._ended = (status, text)
        for reply in self._waiting:
            reply._gets(fault=Ended(status, text))

    def send(self, line):
        """Sends a line, as bytes without its LF, and returns its `Reply` without waiting for it. Replies come in the order of the lines.

        Any number of lines can be on their way: replies are read while lines are sent, so that neither pipe stays full. The line must be one that is
        answered: no remark, not without words, and of at most 32,768 bytes.
        """
        if b"\n" in line or line.startswith(b"#") or not line.strip(b" ") or len(line) > 32_768:
            raise ValueError(f"no line that is answered: {line[:100]!r}")
        reply = Reply()
        with self._sending:
            if self._ended is not None:
                raise Ended(*self._ended)
            try:
                self._waiting.append(reply)
                self.process.stdin.write(line + b"\n")
                self.process.stdin.flush()
            except (OSError, ValueError):
                # The program has ended, or this store was closed. Where its replies end, this line gets the fault.
                pass
            except BaseException:
                # An interrupt within a line: what the program got of it isn't known, so no later reply could be told from its own.
                self.process.kill()
                raise
        return reply

    def transaction(self, name=None):
        """Returns a transaction for a `with`, or for a `begin` by itself. Without a name it gets one, `t` and a number; no other live one may have its name."""
        if name is None:
            with self._sending:
                self._named += 1
                name = f"t{self._named}"
        return Transaction(self, name)

    def flush(self):
        """Makes durable all that was done, and writes it home."""
        self.send(b"flush").done()

    def close(self):
        """Says that no more lines come, waits for the program's end, and raises `Ended` where its status isn't 0. It aborts what is live. Later calls say the same."""
        self._let_go()
        status, text = self._ended
        if status != 0:
            raise Ended(status, text)

    def _let_go(self):
        with self._sending:
            try:
                self.process.stdin.close()
            except OSError:
                # There are lines left that the program, which has ended, won't read.
                pass
        self._reader.join()
        self.process.stdout.close()
        self.process.stderr.close()


def make(folder, program="stasis"):
    """Makes a store in a folder, and the folder where it isn't there. Raises `Ended` where it can't: with status 10 where a store is there."""
    ran = subprocess.run(
        [program, "init", _folder_word(folder)], stdin=subprocess.DEVNULL, stdout=subprocess.DEVNULL, stderr=subprocess.PIPE, check=False
    )
    if ran.returncode != 0:
        raise Ended(ran.returncode, ran.stderr.decode(errors="replace").strip())


def _folder_word(folder):
    """The folder as a word of the program, which takes one that begins with a minus for an option."""
    word = os.fspath(folder)
    return os.path.join(os.curdir, word) if os.fsdecode(word).startswith("-") else word
