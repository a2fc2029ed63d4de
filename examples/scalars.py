"""Prints every scalar of a save with its kind, a line each: python3 scalars.py LIBRARY < save.txt"""
import sys
from ctypes import CDLL, POINTER, byref, c_char_p, c_size_t, c_uint32

library = CDLL(sys.argv[1])  # libtackacorn.so
library.tackacorn_parse.argtypes = [c_char_p, c_size_t, POINTER(c_uint32), c_size_t, *[POINTER(c_uint32)] * 2, POINTER(c_size_t)]
library.tackacorn_kind.argtypes = [c_char_p, c_size_t]
library.tackacorn_refusal_text.restype = c_char_p

text = sys.stdin.buffer.read()
words = 3 * (2 * len(text) + 1)
tape, count, bom, place = (c_uint32 * words)(), c_uint32(), c_uint32(), c_size_t()
refusal = library.tackacorn_parse(text, len(text), tape, words, byref(count), byref(bom), byref(place))
if refusal:
    sys.exit(f"refused at byte {place.value}: {library.tackacorn_refusal_text(refusal).decode()}")
for code, a, b in zip(*[iter(tape[: 3 * count.value])] * 3):
    if code in (4, 5, 6, 7, 10, 11):  # a scalar: a is its offset, b its length
        scalar = text[a : a + b]
        unquoted = ("", "Bool", "Whole", "Decimal", "Name")[library.tackacorn_kind(scalar, b)]
        kind = {5: "Quoted", 11: "QuotedEscape"}.get(code, unquoted)
        sys.stdout.buffer.write(f"{kind} ".encode() + scalar + b"\n")
