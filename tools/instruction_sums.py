#!/usr/bin/env python3
"""The expected sums of the instruction table, computed from the words of the LLVM Language Reference.

    tools/instruction_sums.py           prints a line for each instruction
    tools/instruction_sums.py FILE      says which of these lines FILE lacks; status 1 where there are any

A line has an instruction and eight sums, one for each width, or for each pair of widths of a cast. A sum
goes over all pairs of operands of a width, the left one slower (of a cast, over all operands), and mixes
in what the instruction gives: a number, poison, or undefined behavior. The same is done in
crates/test_meaning, once with the interpreter and once with the terms; this program shares no code
with either. Sections of the Language Reference: Binary Operations, Bitwise Binary Operations, Conversion
Operations, 'icmp' Instruction, Poison Values.
"""
import sys

POISON = "poison"
UNDEFINED = "undefined behavior"
WORD = 2**64

WIDTHS = (1, 2, 3, 4, 8, 16, 32, 64)
# A wider and a narrower width.
WIDTH_PAIRS = ((2, 1), (3, 2), (4, 1), (8, 3), (16, 8), (32, 16), (64, 1), (64, 32))


def signed(n, width):
    """The number read in two's complement."""
    return n - 2**width if n >= 2 ** (width - 1) else n


def fits_unsigned(n, width):
    return 0 <= n < 2**width


def fits_signed(n, width):
    return -(2 ** (width - 1)) <= n < 2 ** (width - 1)


def truncated_quotient(a, b):
    """The quotient, rounded towards zero."""
    quotient = abs(a) // abs(b)
    return quotient if (a < 0) == (b < 0) else -quotient


# The exact results of the instructions that wrap, on numbers of any sign.
EXACT = {
    "add": lambda a, b: a + b,
    "sub": lambda a, b: a - b,
    "mul": lambda a, b: a * b,
    "shl": lambda a, b: a * 2**b,
}


def wrapping(name, flags, width, a, b):
    """add, sub, mul, shl: poison where a flag forbids the wrap that occurs."""
    exact = EXACT[name]
    amount = b if name == "shl" else signed(b, width)
    unsigned_result = exact(a, b)
    signed_result = exact(signed(a, width), amount)
    if "nuw" in flags and not fits_unsigned(unsigned_result, width):
        return POISON
    if "nsw" in flags and not fits_signed(signed_result, width):
        return POISON
    return unsigned_result % 2**width


def divided(name, flags, width, a, b):
    """udiv, sdiv, urem, srem of numbers whose quotient exists."""
    if name in ("sdiv", "srem"):
        a, b = signed(a, width), signed(b, width)
    quotient = truncated_quotient(a, b)
    remainder = a - quotient * b
    if "exact" in flags and remainder != 0:
        return POISON
    return (quotient if name in ("udiv", "sdiv") else remainder) % 2**width


def division(name, flags, width, a, b):
    """A division by zero or by poison is undefined behavior, and so is the quotient of the least number
    and -1, which poison might be."""
    if b == POISON or b == 0:
        return UNDEFINED
    if name in ("sdiv", "srem") and b == 2**width - 1 and a in (POISON, 2 ** (width - 1)):
        return UNDEFINED
    if a == POISON:
        return POISON
    return divided(name, flags, width, a, b)


def shifted_right(name, flags, width, a, b):
    """lshr, ashr: exact forbids that a set bit is shifted out."""
    if "exact" in flags and a % 2**b != 0:
        return POISON
    number = signed(a, width) if name == "ashr" else a
    return (number >> b) % 2**width


def bitwise(name, flags, a, b):
    if "disjoint" in flags and a & b != 0:
        return POISON
    return {"and": a & b, "or": a | b, "xor": a ^ b}[name]


def binary(name, flags, width, a, b):
    if name in ("udiv", "sdiv", "urem", "srem"):
        return division(name, flags, width, a, b)
    if POISON in (a, b):
        return POISON
    if name in ("shl", "lshr", "ashr") and b >= width:
        return POISON
    if name in ("lshr", "ashr"):
        return shifted_right(name, flags, width, a, b)
    if name in ("and", "or", "xor"):
        return bitwise(name, flags, a, b)
    return wrapping(name, flags, width, a, b)


def icmp(predicate, flags, width, a, b):
    if POISON in (a, b):
        return POISON
    if "samesign" in flags and (signed(a, width) < 0) != (signed(b, width) < 0):
        return POISON
    if predicate[0] == "s":
        a, b = signed(a, width), signed(b, width)
    holds = {
        "eq": a == b,
        "ne": a != b,
        "gt": a > b,
        "ge": a >= b,
        "lt": a < b,
        "le": a <= b,
    }
    return int(holds[predicate if predicate in ("eq", "ne") else predicate[1:]])


def cast(name, flags, source, result, a):
    if a == POISON:
        return POISON
    if name == "sext":
        return signed(a, source) % 2**result
    if name == "zext":
        return POISON if "nneg" in flags and signed(a, source) < 0 else a
    if "nuw" in flags and not fits_unsigned(a, result):
        return POISON
    if "nsw" in flags and not fits_signed(signed(a, source), result):
        return POISON
    return a % 2**result


def operands(width):
    """Poison, and all numbers of at most 4 bits; of more bits those at the ends, about the middle and
    about the width."""
    mask, half = 2**width - 1, 2 ** (width - 1)
    if width <= 4:
        return [*range(mask + 1), POISON]
    alternate = 0x5555_5555_5555_5555
    return [
        *(0, 1, 2, 3, 5, 7),
        *(width - 1, width, width + 1),
        *(half - 1, half, half + 1, mask - 1, mask),
        *(mask & alternate, mask & ~alternate),
        POISON,
    ]


def mixed(total, part):
    return (total * 1_000_003 + part) % WORD


def sum_of(results):
    total = 0
    for result in results:
        if result == POISON:
            total = mixed(total, 2)
        elif result == UNDEFINED:
            total = mixed(total, 4)
        else:
            total = mixed(mixed(total, 1), result)
    return (total * 0x9E37_79B9_7F4A_7C15 % WORD) >> 32


def pairs(width):
    return ((a, b) for a in operands(width) for b in operands(width))


def sums(instruction):
    """The eight sums of an instruction, written with its flags, as `add nuw` or `icmp samesign ult`."""
    name, *rest = instruction.split()
    if name == "icmp":
        *flags, predicate = rest
        return [sum_of(icmp(predicate, flags, w, a, b) for a, b in pairs(w)) for w in WIDTHS]
    if name == "trunc":
        return [sum_of(cast(name, rest, w, n, a) for a in operands(w)) for w, n in WIDTH_PAIRS]
    if name in ("zext", "sext"):
        return [sum_of(cast(name, rest, n, w, a) for a in operands(n)) for w, n in WIDTH_PAIRS]
    return [sum_of(binary(name, rest, w, a, b) for a, b in pairs(w)) for w in WIDTHS]


def instructions():
    for name in ("add", "sub", "mul", "shl"):
        yield from (f"{name}{flags}" for flags in ("", " nuw", " nsw", " nuw nsw"))
    for name in ("udiv", "sdiv", "lshr", "ashr"):
        yield from (name, f"{name} exact")
    yield from ("urem", "srem", "and", "or", "or disjoint", "xor")
    predicates = ("eq", "ne", "ugt", "uge", "ult", "ule", "sgt", "sge", "slt", "sle")
    for flag in ("", "samesign "):
        yield from (f"icmp {flag}{predicate}" for predicate in predicates)
    yield from (f"trunc{flags}" for flags in ("", " nuw", " nsw", " nuw nsw"))
    yield from ("zext", "zext nneg", "sext")


def lines():
    for instruction in instructions():
        yield f"{instruction}: {' '.join(f'{total:08x}' for total in sums(instruction))}"


def main():
    if len(sys.argv) == 1:
        print("\n".join(lines()))
        return 0
    with open(sys.argv[1], encoding="utf-8") as file:
        held = {line.strip() for line in file}
    lacking = [line for line in lines() if line not in held]
    print("\n".join([*lacking, f"{len(lacking)} lines are lacking"]))
    return 1 if lacking else 0


if __name__ == "__main__":
    sys.exit(main())
