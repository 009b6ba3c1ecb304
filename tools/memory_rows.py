#!/usr/bin/env python3
"""Loads, stores and getelementptrs with their answers, by the words of the LLVM Language Reference.

    tools/memory_rows.py           prints the rows
    tools/memory_rows.py FILE      says which of these lines FILE lacks; status 1 where there are any

The rows are those of crates/test_meaning (access_rows.rt). A line is a call and its answer:

    loads     ACCESS ALIGN ADDRESS = VALUE or ub
    stores    ACCESS ALIGN ADDRESS VALUE = done or ub, and the bytes of given1 after it
    offsets   FLAGS BASE TYPE INDEX SCALE .. = VALUE

A value is a number, poison, or a block's name and an offset; a byte is two hexadecimal digits, after a tilde two of
the bits that are poison, -- where all are, or a pointer and its part. Sections of the Language Reference: load, store and getelementptr Instruction, Pointer Aliasing
Rules, Poison Values. Memory is a list of blocks (Lee, Kim, Hur, Lopes, CAV 2021). This program shares no code with the
crates.
"""
import sys

WORD = 2**64

# A block: its name, its alignment, its bytes, and after the bar places that are no bytes of it.
BLOCKS = """\
given1 16 01 02 03 84 ff 00 -- 07 null+9/0 null+9/1 null+9/2 null+9/3 null+9/4 null+9/5 null+9/6 null+9/7 |
given2 4 10 20 30 40 | 50 60 70 80
given3 8 given1+2/0 given1+2/1 given1+2/2 given1+2/3 given1+2/4 given1+2/5 given1+2/7 given1+2/6 |
given4 8 given1+2/0 given1+2/1 given1+2/2 given1+2/3 given1+3/4 given1+2/5 given1+2/6 given1+2/7 |
given5 8 given1+2/1 given1+2/2 given1+2/3 given1+2/4 given1+2/5 given1+2/6 given1+2/7 given1+2/0 |
local0.2 2 80 ff ff 7f |
given7 8 01~02 01~80 01 00~80 |
given1 16 aa |"""

LOADS = """\
# an integer's bytes are a number, the least significant first
i8 1 given1+0
i16 2 given1+0
i24 1 given1+0
i32 4 given1+0
i8 1 given1+3
i32 2 local0.2+0
# a number that has more bits than the integer is poison
i1 1 given1+0
i1 1 given1+1
i7 1 given1+0
i7 1 given1+4
i9 1 given1+0
i10 1 given1+0
i31 2 local0.2+0
i30 2 local0.2+0
# one bit of poison, or a part of a pointer, makes an integer poison, also past its width
i1 1 given7+0
i1 1 given7+1
i1 1 given7+2
i8 1 given7+1
i8 1 given7+2
i16 2 given7+2
i15 2 given7+2
i8 1 given1+6
i16 2 given1+6
i32 4 given1+4
i64 8 given1+0
i8 1 given1+8
i64 8 given1+8
# a pointer is its parts 0 to 7 in order
ptr 8 given1+8
ptr 1 given1+8
ptr 8 given1+0
ptr 1 given1+7
ptr 8 given3+0
ptr 8 given4+0
ptr 8 given5+0
# an address has to be a pointer to a block that is there
i8 1 poison
i8 1 0
i8 1 null+0
i8 1 given6+0
i8 1 local0.1+0
i8 1 local1.2+0
# the bytes have to be the block's own; the offset is exact and has no sign
i32 4 given2+0
i8 1 given2+3
i8 1 given2+4
i16 1 given2+3
i64 4 given2+0
ptr 8 given1+16
i8 1 given1+15
i16 1 given1+18446744073709551615
i64 1 given1+18446744073709551608
# the block and the offset have to be aligned
i8 16 given1+0
i8 32 given1+0
i16 4 local0.2+0
i16 2 local0.2+0
i16 2 given1+1
i16 1 given1+1
i32 4 given1+2
i32 8 given1+4"""

STORES = """\
# a number is stored with its least significant byte first
i8 1 given1+0 255
i16 2 given1+2 258
i24 1 given1+1 66051
i32 4 given1+4 4294967294
i64 8 given1+8 72623859790382856
i9 1 given1+0 511
i1 1 given1+15 1
# poison is stored as poison in each bit of the type, and 0 in those past its width
i1 1 given1+0 poison
i5 1 given1+1 poison
i24 1 given1+0 poison
i48 4 given1+4 poison
i8 1 given1+0 poison
i32 4 given1+8 poison
i9 1 given1+3 poison
ptr 8 given1+0 poison
# a pointer is stored as its parts
ptr 8 given1+0 given2+18446744073709551615
ptr 1 given1+3 null+0
ptr 8 given1+8 local0.2+4
# a value of the other kind is stored as poison
i64 8 given1+0 given2+1
i8 1 given1+9 null+0
ptr 8 given1+0 5
# where it is undefined behaviour the memory stays as it was
i8 1 given1+16 1
i8 1 poison 1
i8 1 null+0 1
i8 1 given6+0 1
i16 2 given1+1 1
i8 32 given1+0 1
i64 8 given1+9 1
# a store to another block
i8 1 given2+0 1"""

OFFSETS = """\
# an index counts for its scale; without indices it is the base
- given1+4
- given1+4 i64 1 4
- given1+4 i64 3 4 i64 2 1
- null+0 i32 7 3
- given1+4 i8 1 0
# indices have a sign
- given1+4 i8 255 4
- given1+4 i8 128 1
- given1+4 i8 127 1
- given1+4 i64 18446744073709551615 1
- given1+4 i1 1 1
# offsets wrap modulo 2^64
- given1+4 i8 251 1
- given1+18446744073709551615 i8 1 1
- given1+5 i64 9223372036854775807 18446744073709551615
- given1+5 i64 9223372036854775808 18446744073709551615
- given1+0 i64 4294967296 4294967296
# a poison base or index gives poison
- poison i8 1 1
- 4 i8 1 1
- given1+0 i8 poison 1
- given1+0 i8 poison 0
- given1+0 i8 1 1 i8 poison 1
inbounds given1+0 i8 0 1 i8 poison 1
# inbounds: the sums are inside the block or at its end
inbounds given1+4 i8 12 1
inbounds given1+4 i8 13 1
inbounds given1+4 i8 252 1
inbounds given1+4 i8 251 1
inbounds given2+0 i8 4 1
inbounds given2+0 i8 5 1
inbounds given1+0 i64 9223372036854775807 18446744073709551615
# inbounds looks at each sum on the way
inbounds given1+4 i8 13 1 i8 255 1
inbounds given1+4 i8 12 1 i8 255 1
inbounds given1+4 i8 251 1 i8 5 1
- given1+4 i8 13 1 i8 255 1
# inbounds looks at the base offset where some index isn't 0
inbounds given1+17 i8 0 1
inbounds given1+17
inbounds given1+17 i8 255 4
inbounds given1+17 i8 1 0
inbounds given1+16 i8 1 0
# no block has no bytes
inbounds null+0 i8 0 8
inbounds null+0 i8 1 1
inbounds null+0 i8 1 0
inbounds given6+0 i8 1 1
inbounds given6+0 i8 1 0
inbounds given6+3 i8 0 1
# nuw: no index is negative
inbounds,nuw given1+4 i8 255 1
inbounds,nuw given1+4 i8 1 1
inbounds,nuw given1+4 i8 255 0
nuw given1+4 i8 100 1
nuw given1+4 i8 1 1 i8 255 1"""


def name_of(word):
    if word.startswith("local"):
        return ("local", *map(int, word[5:].split(".")))
    return ("given", int(word[5:])) if word.startswith("given") else ("null",)


def value_of(word):
    if "+" in word:
        name, offset = word.split("+")
        return (name_of(name), int(offset))
    return None if word == "poison" else int(word)


def value_text(value):
    if value is None:
        return "poison"
    if isinstance(value, int):
        return str(value)
    name, offset = value
    text = {"null": "null", "given": "given%s", "local": "local%s.%s"}[name[0]]
    return f"{text % name[1:]}+{offset}"


def byte_of(word):
    """A pointer and its part, or a number and the bits that are poison."""
    if "/" in word:
        pointer, part = word.split("/")
        return (value_of(pointer), int(part))
    number, _, mask = ("00~ff" if word == "--" else word).partition("~")
    return int(number, 16), int(mask or "0", 16)


def byte_text(byte):
    first, second = byte
    if isinstance(first, tuple):
        return f"{value_text(first)}/{second}"
    if second == 255:
        return "--"
    return "%02x~%02x" % byte if second else "%02x" % first


def memory():
    """The name, the alignment and the bytes of each block."""
    blocks = []
    for line in BLOCKS.splitlines():
        words, _ = line.split("|")
        name, align, *contents = words.split()
        blocks.append((name_of(name), int(align), [byte_of(word) for word in contents]))
    return blocks


def block_at(blocks, value):
    """The first block that a pointer's name names."""
    if not isinstance(value, tuple) or value[0] == ("null",):
        return None
    return next((block for block in blocks if block[0] == value[0]), None)


def size_of(access):
    return 8 if access == "ptr" else -(-int(access[1:]) // 8)


def accessed(blocks, access, align, address):
    """The bytes and the offset that an access goes to; None where it is undefined behaviour."""
    block = block_at(blocks, address)
    if block is None or address[1] + size_of(access) > len(block[2]):
        return None
    return (block[2], address[1]) if block[1] >= align and address[1] % align == 0 else None


def loaded(access, contents):
    if access == "ptr":
        first = contents[0]
        whole = isinstance(first[0], tuple) and contents == [(first[0], part) for part in range(8)]
        return first[0] if whole else None
    if any(isinstance(first, tuple) or second for first, second in contents):
        return None
    number = int.from_bytes(bytes(first for first, _ in contents), "little")
    return number if number < 2 ** int(access[1:]) else None


def stored(access, value):
    if access == "ptr" and isinstance(value, tuple):
        return [(value, part) for part in range(8)]
    if access != "ptr" and isinstance(value, int):
        return [(byte, 0) for byte in value.to_bytes(size_of(access), "little")]
    bits = 64 if access == "ptr" else int(access[1:])
    return [(0, byte) for byte in (2**bits - 1).to_bytes(size_of(access), "little")]


def load_row(access, align, address):
    found = accessed(memory(), access, int(align), value_of(address))
    if found is None:
        return "ub"
    contents, offset = found
    return value_text(loaded(access, contents[offset : offset + size_of(access)]))


def store_row(access, align, address, value):
    blocks = memory()
    found = accessed(blocks, access, int(align), value_of(address))
    if found is not None:
        contents, offset = found
        contents[offset : offset + size_of(access)] = stored(access, value_of(value))
    return " ".join(["ub" if found is None else "done", *map(byte_text, blocks[0][2])])


def offset_row(flags, base, *indices):
    base, flags = value_of(base), flags.split(",")
    numbers = []
    for kind, index, scale in zip(indices[::3], indices[1::3], indices[2::3]):
        width, index = int(kind[1:]), value_of(index)
        if not isinstance(index, int):
            return "poison"
        numbers.append((index - 2**width if index >= 2 ** (width - 1) else index, int(scale)))
    if not isinstance(base, tuple):
        return "poison"
    sums = [base[1]]
    for number, scale in numbers:
        sums.append(sums[-1] + number * scale)
    block = block_at(memory(), base)
    size = len(block[2]) if block else 0
    moves = any(number for number, _ in numbers)
    if "inbounds" in flags and moves and not all(0 <= z <= size for z in sums):
        return "poison"
    if "nuw" in flags and any(number < 0 for number, _ in numbers):
        return "poison"
    return value_text((base[0], sums[-1] % WORD))


def answered(rows, answer):
    for line in rows.splitlines():
        yield line if line.startswith("#") else f"{line} = {answer(*line.split())}"


def main(files):
    rows = [*answered(LOADS, load_row), *answered(STORES, store_row), *answered(OFFSETS, offset_row)]
    lines = [*BLOCKS.splitlines(), *rows]
    if not files:
        print("\n".join(lines))
        return 0
    with open(files[0], encoding="utf-8") as file:
        there = set(file.read().splitlines())
    missing = [line for line in lines if line not in there]
    for line in missing:
        print("missing:", line)
    return 1 if missing else 0


if __name__ == "__main__":
    sys.exit(main(sys.argv[1:]))
