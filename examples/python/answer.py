"""Answers the sheet on standard input by the library: answer.py LIBRARY < SHEET

LIBRARY is the shared object that tools/callers makes. Status 0 or 1, as the program has it.
"""

import ctypes
import sys

SHEET_SPACE = 16_385
PAGE_SPACE = 1_024


def load(path):
    """The library's one function, with the types of examples/c/deckpage.h."""
    answer = ctypes.CDLL(path).deckpage_answer
    answer.argtypes = (ctypes.c_char_p, ctypes.c_size_t, ctypes.c_char_p, ctypes.c_size_t,
                       ctypes.POINTER(ctypes.c_uint32))
    answer.restype = ctypes.c_size_t
    return answer


def page_of(answer, sheet):
    """The page of a sheet, and 0 or the number of the refusal."""
    page, refusal = ctypes.create_string_buffer(PAGE_SPACE), ctypes.c_uint32()
    written = answer(sheet, len(sheet), page, PAGE_SPACE, refusal)
    return page.raw[:written], refusal.value


def main():
    """Standard input to standard output."""
    if len(sys.argv) != 2:
        sys.exit("usage: answer.py LIBRARY < SHEET")
    page, refusal = page_of(load(sys.argv[1]), sys.stdin.buffer.read(SHEET_SPACE))
    sys.stdout.buffer.write(page)
    return 0 if refusal == 0 else 1


if __name__ == "__main__":
    sys.exit(main())
