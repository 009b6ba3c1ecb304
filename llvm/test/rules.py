"""The rules for integer intrinsics against LLVM itself, and against tv.

Each intrinsic is called on constants. LLVM folds the calls (instsimplify); the plugin writes the
same calls out (tv-lower), and LLVM folds what came out. Both have to be the same numbers, and
poison in the same cases; where an operand is poison, what the rule wrote has to be poison.

For small widths tv is asked too: what is written out, on all inputs, against a table of the folded
numbers, in both directions; and on a poison operand against poison.
"""
import dataclasses
import itertools
import random
import re
import subprocess

AT_A_TIME = 20_000
STORED = re.compile(r"\bstore \S+ (\S+), ptr")
# The LangRef says poison of the least number's abs, and of the zeros in 0; LLVM 19 folds undef.
UNDEF = re.compile(r"\bundef\b")
POISON = "poison"


@dataclasses.dataclass(frozen=True)
class Rule:
    """An intrinsic: its operands, and constants that end each call, e.g. `i1 true`. `widths` says
    which widths there are; `parts` how many results; `result` the type, where it is another."""
    name: str
    operands: int
    ends: tuple = ("",)
    every: int = 1
    parts: int = 1
    result: str = ""

    def has_width(self, width):
        return width % self.every == 0


FLAGS = (", i1 false", ", i1 true")
RULES = [
    *(Rule(name, 2) for name in ("smin", "smax", "umin", "umax", "sadd.sat", "uadd.sat",
                                 "ssub.sat", "usub.sat")),
    Rule("abs", 1, FLAGS), Rule("ctlz", 1, FLAGS), Rule("cttz", 1, FLAGS),
    Rule("ctpop", 1), Rule("bitreverse", 1), Rule("bswap", 1, every=16),
    Rule("fshl", 3), Rule("fshr", 3),
    Rule("scmp", 2, result="i8"), Rule("ucmp", 2, result="i8"),
    *(Rule(f"{sign}{name}.with.overflow", 2, parts=2)
      for sign in "su" for name in ("add", "sub", "mul")),
]
WIDTHS = [*range(1, 9), 9, 13, 16, 17, 24, 31, 32, 33, 47, 48, 63, 64]
# Those that are tried where not all is.
FEW_WIDTHS = [1, 2, 3, 5, 8, 16, 33, 64]
FEW_INPUTS = 300


class Failed(AssertionError):
    pass


def literal(number, width):
    """A number as an operand; i1 is `true` or `false`, as LLVM prints it."""
    if number == POISON or width > 1:
        return str(number)
    return "true" if number else "false"


def declaration(rule, width):
    kind = f"i{width}"
    result = rule.result or (f"{{ {kind}, i1 }}" if rule.parts == 2 else kind)
    kinds = [kind] * rule.operands + (["i1"] if rule.ends != ("",) else [])
    name = f"@llvm.{rule.name}.{rule.result + '.' if rule.result else ''}{kind}"
    return result, name, f"declare {result} {name}({', '.join(kinds)})\n"


def calls(rule, width, inputs):
    """A module that stores the results of all these calls, in order."""
    result, name, declared = declaration(rule, width)
    lines = [declared, "define void @f(ptr %p) {"]
    for at, (operands, end) in enumerate(inputs):
        words = ", ".join(f"i{width} {literal(each, width)}" for each in operands)
        lines.append(f"%r{at} = call {result} {name}({words}{end})")
        if rule.parts == 1:
            lines.append(f"store {result} %r{at}, ptr %p")
        for part, kind in enumerate((f"i{width}", "i1") if rule.parts == 2 else ()):
            lines.append(f"%r{at}.{part} = extractvalue {result} %r{at}, {part}")
            lines.append(f"store {kind} %r{at}.{part}, ptr %p")
    return "\n".join([*lines, "ret void", "}", ""])


def inputs_of(rule, width, chance):
    """The operands of the calls: all of them, or a choice where there are too many; then some with
    poison."""
    numbers = range(1 << width)
    many = rule.operands == 3 and width > 4
    if width > 8 and "mul" in rule.name:
        found = products(width, chance, 1_000)
    elif width > 8 or many:
        count = 1_000 if width > 8 else 100_000
        edges = [0, 1, 2, width - 1, width, (1 << width) - 1, 1 << (width - 1),
                 (1 << (width - 1)) - 1]
        edges = [each % (1 << width) for each in edges]
        found = [tuple(chance.choice(edges) if chance.random() < 0.4 else
                       chance.getrandbits(width) >> chance.randrange(width)
                       for _ in range(rule.operands)) for _ in range(count)]
    else:
        found = list(itertools.product(numbers, repeat=rule.operands))
    few = found if len(found) <= 16 else chance.sample(found, 16)
    found += [(*each[:at], POISON, *each[at + 1:]) for each in few for at in range(rule.operands)]
    return [(each, end) for each in found for end in rule.ends]


def products(width, chance, count):
    """Factors whose product is near the first one that has more than the bits of a width, signed or
    unsigned, of either sign; and some that are drawn."""
    found = []
    while len(found) < count:
        one = max(1, chance.getrandbits(width) >> chance.randrange(width))
        other = (1 << (width - chance.randrange(2))) // one + chance.randrange(-1, 2)
        signs = chance.choice((1, -1)), chance.choice((1, -1))
        drawn = chance.getrandbits(width)
        pair = one * signs[0], (other if chance.random() < 0.8 else drawn) * signs[1]
        found.append(tuple(each % (1 << width) for each in pair))
    return found


class Bench:
    """opt with the plugin, and tv."""

    def __init__(self, opt, plugin, tv):
        self.opt, self.plugin, self.tv = opt, plugin, tv

    def run(self, text, passes):
        done = subprocess.run([self.opt, f"-load-pass-plugin={self.plugin}", "-S",
                               f"-passes={passes}", "-o", "-", "-"],
                              input=text, capture_output=True, text=True)
        if done.returncode:
            raise Failed(f"opt {passes}: {done.stderr[:1000]}")
        return done.stdout

    def folded(self, text, passes):
        return STORED.findall(UNDEF.sub(POISON, self.run(text, passes)))


def compared(bench, rule, width, inputs):
    """Compares what LLVM folds the calls to with what it folds the written out ones to."""
    for begin in range(0, len(inputs), AT_A_TIME):
        some = inputs[begin:begin + AT_A_TIME]
        text = calls(rule, width, some)
        wanted = bench.folded(text, "function(instsimplify)")
        lowered = bench.run(text, "tv-lower")
        if "call " in lowered:
            raise Failed(f"{rule.name} i{width}: a call is left")
        found = bench.folded(lowered, "function(instsimplify)")
        if not len(wanted) == len(found) == len(some) * rule.parts:
            raise Failed(f"{rule.name} i{width}: {len(found)} results")
        for at, (want, have) in enumerate(zip(wanted, found)):
            operands = some[at // rule.parts]
            # LLVM may fold a poison operand to a number: it refines poison. The rule may not.
            if have != (POISON if POISON in operands[0] else want):
                raise Failed(f"{rule.name} i{width} {operands}: {have}, and LLVM folds {want}")
    return len(inputs)


# tv.

def result_type(rule, width, part):
    return "i1" if part else rule.result or f"i{width}"


def call_body(rule, width, end, part, operands):
    result, name, _ = declaration(rule, width)
    words = ", ".join(f"i{width} {each}" for each in operands)
    body = f"%r = call {result} {name}({words}{end})\n"
    if rule.parts == 1:
        return body + f"ret {result} %r\n"
    kind = result_type(rule, width, part)
    return body + f"%p = extractvalue {result} %r, {part}\nret {kind} %p\n"


def table_body(rule, width, part, rows):
    """A switch on all operands put together, with a return for each case."""
    kind, whole = result_type(rule, width, part), width * rule.operands
    key = []
    for at in range(rule.operands):
        key.append(f"%z{at} = zext i{width} %x{at} to i{whole}" if whole > width
                   else f"%z{at} = or i{width} %x{at}, 0")
        key.append(f"%s{at} = shl i{whole} %z{at}, {at * width}")
        key.append(f"%k{at} = or i{whole} %s{at}, {f'%k{at - 1}' if at else 0}")
    cases, blocks = [], []
    for number, (operands, value) in enumerate(rows):
        code = sum(each << (at * width) for at, each in enumerate(operands))
        cases.append(f"i{whole} {literal(code, whole)}, label %c{number}")
        blocks.append(f"c{number}:\nret {kind} {value}")
    return "\n".join([*key, f"switch i{whole} %k{rule.operands - 1}, label %none [", *cases, "]",
                      "none:", "unreachable", *blocks, ""])


def pairs_of(bench, rule, width):
    """Functions of a source and a target that tv has to find correct, as two texts: the rule
    against a table, the table against the rule, poison operands against poison, and back."""
    before, after, declared = [], [], declaration(rule, width)[2]
    numbers = list(itertools.product(range(1 << width), repeat=rule.operands))
    params = ", ".join(f"i{width} noundef %x{at}" for at in range(rule.operands))
    for (flag, end), part in itertools.product(enumerate(rule.ends), range(rule.parts)):
        values = bench.folded(calls(rule, width, [(each, end) for each in numbers]),
                              "function(instsimplify)")[part::rule.parts]
        kind = result_type(rule, width, part)
        names = [f"%x{at}" for at in range(rule.operands)]
        bodies = [(call_body(rule, width, end, part, names),
                   table_body(rule, width, part, list(zip(numbers, values))))]
        for at in range(rule.operands):
            some = [*names[:at], POISON, *names[at + 1:]]
            bodies.append((call_body(rule, width, end, part, some), f"ret {kind} poison\n"))
        for number, (one, other) in enumerate(bodies):
            for way, (source, target) in enumerate(((one, other), (other, one))):
                name = f"@f.{flag}.{part}.{number}.{way}"
                head = f"define {kind} {name}({params}) {{\n"
                before.append(head + source + "}\n")
                after.append(head + target + "}\n")
    return [declared + "".join(texts) for texts in (before, after)]


def judged(bench, rule, width, folder):
    """Asks tv of the pairs of a rule; their number."""
    paths = []
    for name, text in zip(("before.ll", "after.ll"), pairs_of(bench, rule, width)):
        path = f"{folder}/{name}"
        with open(path, "w") as file:
            file.write(bench.run(text, "tv-lower"))
        paths.append(path)
    report = subprocess.run([bench.tv, "check", "--workers", "1", *paths], capture_output=True,
                            text=True).stdout
    last = report.splitlines()[-1] if report else "no report"
    found = re.match(r"correct (\d+)((?: [a-z]+ 0)*)$", last)
    if not found:
        raise Failed(f"{rule.name} i{width}: tv says {last}\n{report[:2000]}")
    return int(found.group(1))


def tested(bench, folder, whole, say=lambda text: None):
    """Runs all; a text that counts. Without `whole` some widths, and some inputs of each."""
    chance, folds, pairs = random.Random(1), 0, 0
    for rule in RULES:
        for width in filter(rule.has_width, WIDTHS if whole else FEW_WIDTHS):
            inputs = inputs_of(rule, width, chance)
            if not whole and len(inputs) > FEW_INPUTS:
                inputs = chance.sample(inputs, FEW_INPUTS)
            folds += compared(bench, rule, width, inputs)
        for width in (1, 2, 3) if rule.operands < 3 else (1, 2):
            if bench.tv and rule.has_width(width):
                pairs += judged(bench, rule, width, folder)
        say(f"{rule.name}: {folds} calls folded, {pairs} pairs judged so far")
    return f"{folds} calls folded, {pairs} pairs judged"
