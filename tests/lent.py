"""The calls of include/sleep_register.h, by the archive's own symbols, on the library linked as a shared object, with buffers that show every byte written."""

import ctypes
import sys

NUMBER = ctypes.c_uint64
PLACES = {'tree': 1, 'bitfield': 2}
OUTCOMES = {('equal',): 0, ('same chunk',): 0, ('roots differ',): 1, ('collision', 'at the roots'): 2}


# How many numbers a call answers, in the array that is lent to it last, for each struct of the header.
Answer, Comparison, Found, Serving, NodeRead = 3, 4, 5, 7, 70


def numbers(*values):
    """Numbers as a C caller finds them in memory."""
    return b''.join(value.to_bytes(8, sys.byteorder) for value in values)


def answer_of(expected):
    """The three numbers that stand for the model's answer."""
    if expected[0] != 'refused':
        return numbers(0, 0, 0)
    number, place = expected[1:3]
    return numbers(number, PLACES[place[0]], place[1]) if place else numbers(number, 0, 0)


def comparison_of(expected):
    """The four numbers that stand for the model's comparison."""
    if expected[0] == 'refused':
        return numbers({'first': 4, 'second': 5}[expected[3]]) + answer_of(expected)
    if expected in OUTCOMES:
        return numbers(OUTCOMES[expected], 0, 0, 0)
    return numbers(3, 0, *(PLACES[expected[1][0]], expected[1][1]))


def serving_of(expected):
    """The seven numbers that stand for the model's serving."""
    if expected[0] == 'none':
        return numbers(*[0] * 7)
    _, station, name, chunk, read = expected
    return numbers(1, station, ('metadata', 'content').index(name), chunk) + answer_of(read)


class Buffer:
    """Bytes lent to C, between two guards that no call may touch. Of an `array` C takes the pointer alone. `after` gives what a done call
    is to leave there, from what the model gives; without it the buffer is only read. Its length is told in numbers of `unit` bytes."""
    GUARD = b'\xa5' * 16

    def __init__(self, content, array=False, after=None, unit=1):
        self.before, self.array, self.after, self.unit = bytes(content), array, after, unit
        self.memory = ctypes.create_string_buffer(self.GUARD + self.before + self.GUARD, len(content) + 32)
        self.pointer = ctypes.c_void_p(ctypes.addressof(self.memory) + 16)

    def words(self):
        return (self.pointer,) if self.array else (self.pointer, NUMBER(len(self.before) // self.unit))

    def held(self):
        held = self.memory.raw
        if held[:16] != self.GUARD or held[16 + len(self.before):] != self.GUARD:
            raise SystemExit('a call wrote outside its buffer')
        return held[16:-16]

    def expected(self, answer):
        done = answer is None or answer[0] != 'refused'
        return self.after(*answer[1:]) if self.after and done else self.before


class Fields(Buffer):
    """A sleep_node, as its 67 numbers."""

    def __init__(self, held):
        super().__init__(bytes(held), array=True)


class Library:
    def __init__(self, path):
        self.c = ctypes.CDLL(path)

    def call(self, name, given, gives=Answer):
        """The bytes of what the call answers: a number, or the array that is lent for it, which holds anything before. `given` are buffers, numbers and fields."""
        function = getattr(self.c, 'sleep_flat_' + name)
        words = [word for one in given for word in (one.words() if isinstance(one, Buffer) else (NUMBER(one),))]
        if gives is NUMBER:
            function.restype = NUMBER
            return numbers(function(*words))
        answer = Buffer(b'\x5a' * 8 * gives, array=True)
        function.restype = None
        function(*words, *answer.words())
        return answer.held()
