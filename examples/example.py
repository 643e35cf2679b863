"""The report index from Python, by ctypes. It needs a shared library, which is made from the static one:

    cc -shared -o libreport_index.so -Wl,--whole-archive target/staticlib/libindex.a -Wl,--no-whole-archive
    python3 examples/example.py ./libreport_index.so
"""

import ctypes
import sys
from ctypes import POINTER, Structure, byref, c_bool, c_size_t, c_uint8, c_uint32

BLOCKS, ENTRIES, PLACES = 1000, 512, 16


class Counters(Structure):
    _fields_ = [("used", c_uint32), ("terms", c_uint32), ("reports", c_uint32)]


class ReportAnswer(Structure):
    _fields_ = [("refusal", c_uint8), ("number", c_uint32)]


class ListAnswer(Structure):
    _fields_ = [("refusal", c_uint8), ("more", c_bool), ("filled", c_uint32)]


BYTES = [POINTER(c_uint8), c_size_t]
WORDS = [POINTER(c_uint32), c_size_t]


def load(path):
    """The library, with the parameters and the answer of each call."""
    library = ctypes.CDLL(path)
    memory = BYTES + WORDS + [POINTER(Counters)]
    for name, answer, parameters in [
        ("start", None, WORDS + [POINTER(Counters)]),
        ("report", ReportAnswer, memory + BYTES),
        ("list_one", ListAnswer, memory + BYTES + WORDS + WORDS),
        ("list_all", ListAnswer, memory + BYTES + WORDS),
    ]:
        call = getattr(library, "report_index_" + name)
        call.restype, call.argtypes = answer, parameters
    return library


def framed(body):
    """Version, length of the body, body."""
    return b"\x01" + len(body).to_bytes(2, "big") + body


def term_bytes(term):
    """A length byte and the term, a character a byte."""
    text = term.encode("latin-1")
    return bytes([len(text)]) + text


def report(*lines):
    return framed(b"\x01" + b"".join(term_bytes(term) + count.to_bytes(4, "big") for term, count in lines))


def query(kind, start, *terms):
    return framed(bytes([kind]) + start.to_bytes(4, "big") + b"".join(term_bytes(term) for term in terms))


class Index:
    """An index with its memory."""

    def __init__(self, library):
        self.library = library
        self.arena = (c_uint8 * (BLOCKS * 64))()
        self.table = (c_uint32 * ENTRIES)()
        self.counters = Counters()
        library.report_index_start(self.table, ENTRIES, byref(self.counters))

    def lent(self, frame):
        """The parameters that every call but the start has."""
        bytes_of = (c_uint8 * len(frame)).from_buffer_copy(frame)
        return self.arena, BLOCKS * 64, self.table, ENTRIES, byref(self.counters), bytes_of, len(frame)

    def take(self, frame):
        answer = self.library.report_index_report(*self.lent(frame))
        print(f"refused {answer.refusal}" if answer.refusal else f"report {answer.number}")

    def find_one(self, term):
        numbers, counts = (c_uint32 * PLACES)(), (c_uint32 * PLACES)()
        answer = self.library.report_index_list_one(*self.lent(query(2, 0, term)), numbers, PLACES, counts, PLACES)
        found = [f"{numbers[i]}:{counts[i]}" for i in range(answer.filled)]
        print(" ".join(["found"] + found + ["+"] * answer.more))

    def find_all(self, *terms):
        numbers = (c_uint32 * PLACES)()
        answer = self.library.report_index_list_all(*self.lent(query(3, 0, *terms)), numbers, PLACES)
        print(" ".join(["found"] + [str(numbers[i]) for i in range(answer.filled)] + ["+"] * answer.more))


def main():
    index = Index(load(sys.argv[1]))
    index.take(report(("zn", 3), ("P17", 1)))
    index.take(report(("zn", 4)))
    index.find_one("zn")
    index.find_all("zn", "p17")
    index.take(report(("z n", 1)))


main()
