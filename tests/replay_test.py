"""The stored cases of replayed.cases, each through the C interface of the shared library itself, with no module in between: first the
sample of the Rust's answers, then examples, each a name and a case (oracle/README.md has the format). The output parts lent have the
case's lengths; they, some elements behind them and the result are filled first, and afterwards every element of all of them is
compared."""
import ctypes
import os
import struct
import unittest

import built
from expected import read

SAMPLE, EXAMPLES = 576, 433
BYTE, WORD = ctypes.c_uint8, ctypes.c_uint64
RESULT = 8
FILL = b'\xbb'
BEHIND = 64


def parts(stored, at):
    """The parts from a place on to the end."""
    found = []
    while at < len(stored):
        length, = struct.unpack_from('<H', stored, at)
        at += 2 + length
        found.append(stored[at - length:at])
    if at > len(stored):
        raise ValueError('the last part is cut')
    return found


def stored_cases():
    """The cases of the sample, the names of the examples, and their cases."""
    stored = read('tests/replayed.cases')
    count, = struct.unpack_from('<H', stored)
    found = parts(stored, 2)
    return found[:count], found[count::2], found[count + 1::2]


def array(kind, content):
    return (kind * (len(content) // ctypes.sizeof(kind))).from_buffer_copy(content)


def filled(kind, lent):
    """A buffer for a lent part of so many elements."""
    return array(kind, FILL * ((lent + BEHIND) * ctypes.sizeof(kind)))


class Replay(unittest.TestCase):
    def test_no_case_is_missing(self):
        self.assertEqual([len(found) for found in stored_cases()], [SAMPLE, EXAMPLES, EXAMPLES])

    @built.needs_library
    def test_cases(self):
        run = ctypes.CDLL(built.LIBRARY).nosingcatnip_exec_binop
        run.argtypes, run.restype = [ctypes.c_void_p, ctypes.c_size_t] * 7 + [ctypes.c_void_p], None
        sample, names, cases = stored_cases()
        for k, case in enumerate(sample):
            with self.subTest(f'case {k} of the sample'):
                self.replay(run, case)
        for name, case in zip(names, cases):
            with self.subTest(name.decode()):
                self.replay(run, case)

    def replay(self, run, case):
        labels_lent, readings_lent = struct.unpack_from('<HH', case)
        numbers, query, left_labels, left, right_labels, right, labels, readings = parts(case, 4)
        given = [array(BYTE, query), array(BYTE, left_labels), array(WORD, left), array(BYTE, right_labels), array(WORD, right)]
        out_labels, out, result = filled(BYTE, labels_lent), filled(WORD, readings_lent), filled(WORD, RESULT)
        run(*(x for part in given for x in (part, len(part))), out_labels, labels_lent, out, readings_lent, result)
        self.holds('the result', result, numbers)
        self.holds('the label part', out_labels, labels)
        self.holds('the readings', out, readings)

    def holds(self, what, buffer, wanted):
        """That a buffer begins with what is wanted, and has the fill in every element behind it."""
        size = ctypes.sizeof(buffer._type_)
        held, wanted = bytes(buffer), wanted.ljust(ctypes.sizeof(buffer), FILL)
        if held != wanted:
            place = len(os.path.commonprefix([held, wanted])) // size
            found, due = (int.from_bytes(content[place * size:][:size], 'little') for content in (held, wanted))
            self.fail(f'{what}: {found:#x} at place {place}, not {due:#x}')


if __name__ == '__main__':
    unittest.main()
