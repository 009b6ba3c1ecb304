"""Which bounds fit a pair of functions, and which accesses no input within the bounds reaches.

Bounds: what the constants of the two functions say of the offsets at which they read and write
memory from outside, and with which alignment: with no byte more, an access could only be at offset
0, which has each alignment. They only choose the question: a bound that is too small loses inputs,
and is found by `Reach`; one that is too large costs time.

Reach: `tv` judges a pair for the inputs within the bounds, and says nothing of the target where
the source is undefined. `Reach` asks tv itself whether the source is ever defined that far.
"""
import dataclasses
import re

import tvir

DEFAULTS = {"turns": 4, "blocks": 2, "bytes": 8}
LARGEST = {"turns": 64, "blocks": 4, "bytes": 32}
BLOCK_ALIGN = 16
ALIGN = re.compile(r", *align (\d+)\b")
FAR = 256
INTEGER = re.compile(r"i\d+\b")
# A label; where a jump goes, with no name where that is in quotes; and what may give a pointer: a
# global, a number, a call, a load of no number. A name or a label with such a word in it is none.
LABEL = re.compile(r"^\s*([-\w.$]+):", re.M)
WORD = r"(?<![-%\w.$])(?:{})(?![-\w.$:])".format
JUMP = re.compile(WORD("label") + r"(?:\s+%([-\w.$]+))?")
FROM_OUTSIDE = re.compile("@|" + WORD("inttoptr|call|invoke|callbr|va_arg")
                          + "|" + WORD("load") + r"(?!\s+(?:atomic\s+|volatile\s+)*i\d+\b)")
MANY = 64
SCALARS = {"ptr": 8, "half": 2, "bfloat": 2, "float": 4, "double": 8, "fp128": 16}


# Sizes of types, as the data layout of x86-64 has them.

def layout_of(text, named):
    """Size and alignment of a type in bytes, or None where it isn't known."""
    text = text.strip()
    number = re.fullmatch(r"i(\d+)", text)
    array = re.fullmatch(r"\[\s*(\d+)\s+x\s+(.*)\]", text, re.S)
    fields = re.fullmatch(r"(<)?\{(.*)\}(>)?", text, re.S)
    if number:
        size = 1 << max(0, (int(number.group(1)) + 7) // 8 - 1).bit_length()
        return size, min(size, 16)
    if text in SCALARS:
        return SCALARS[text], SCALARS[text]
    if array:
        inner = layout_of(array.group(2), named)
        return inner and (int(array.group(1)) * inner[0], inner[1])
    if fields:
        found = offsets_of(tvir.split(fields.group(2)), bool(fields.group(1)), named)
        return found and (found[1], found[2])
    return layout_of(named[text], {**named, text: "?"}) if text in named else None


def offsets_of(fields, packed, named):
    """Offsets of a struct's fields, its size and its alignment; None where one isn't known."""
    offsets, end, most = [], 0, 1
    for field in filter(None, fields):
        found = layout_of(field, named)
        if not found:
            return None
        align = 1 if packed else found[1]
        end += -end % align
        offsets.append(end)
        end, most = end + found[0], max(most, align)
    return offsets, end + -end % most, most


def stepped(text, index, named):
    """The type at an index of an array or a struct, and its offset; None where it isn't known."""
    text = named.get(text, text)
    array = re.fullmatch(r"\[\s*(\d+)\s+x\s+(.*)\]", text, re.S)
    fields = re.fullmatch(r"(<)?\{(.*)\}(>)?", text, re.S)
    if array:
        inner = layout_of(array.group(2), named)
        return inner and (array.group(2).strip(), index * inner[0])
    if fields:
        parts = tvir.split(fields.group(2))
        found = offsets_of(parts, bool(fields.group(1)), named)
        return (parts[index], found[0][index]) if found and index < len(found[0]) else None
    return None


# Accesses.

@dataclasses.dataclass
class Access:
    """A load or a store: the index of its line in the function, the block, the operand of the
    pointer, the size in bytes (0 where it isn't known), and the alignment that it asks for."""
    at: int
    word: str
    block: str
    pointer: str
    size: int
    align: int


def accesses_of(blocks, named):
    """The loads and stores of a function, in its order."""
    found = []
    for block in blocks:
        for each in block.instructions:
            if each.word not in ("load", "store") or len(each.operands) < 2:
                continue
            first = each.operands[0]
            size = layout_of(first if each.word == "load" else first.rsplit(" ", 1)[0], named)
            written = ALIGN.search(each.rest)
            align = int(written.group(1)) if written else size[1] if size else 1
            found.append(Access(each.at, each.word, block.name, each.pointer,
                                size[0] if size else 0, align))
    return found


# What constants say of values.

NUMBER = ""
ZERO = {(NUMBER, 0)}


class Values:
    """For each value of a function what it may be, as far as constants say: pairs of what it
    counts from and an offset. A number counts from NUMBER; a pointer from the parameter, alloca
    or load that it comes from. A loop is followed for `turns` rounds."""

    def __init__(self, function, blocks, named, turns):
        self.named, self.found, self.kept, self.outside = named, {}, {}, set()
        for part, name in zip(function.parameters, function.argument_names):
            if part.startswith("ptr"):
                self.outside.add(name)
                self.found[name] = {(name, 0)}
        instructions = [each for block in blocks for each in block.instructions]
        for _ in range(turns + 1):
            before = sum(map(len, [*self.found.values(), *self.kept.values()]))
            for each in instructions:
                self.step(each)
            if before == sum(map(len, [*self.found.values(), *self.kept.values()])):
                break

    def of(self, operand):
        """What an operand may be; empty where nothing is known."""
        operand = operand.strip()
        if re.fullmatch(r"-?\d+", operand):
            return {(NUMBER, int(operand))}
        return self.found.get(operand, set())

    def step(self, each):
        """Adds what one instruction gives its result, or stores."""
        read = getattr(self, "of_" + each.word, None)
        if each.word == "store":
            self.store(each)
        elif each.word == "alloca" and each.result:
            self.put(each.result, {(each.result, 0)})
        elif read and each.result:
            self.put(each.result, read(each))

    def put(self, name, more):
        near = {pair for pair in more if abs(pair[1]) <= FAR}
        held = self.found.setdefault(name, set())
        for pair in sorted(near - held, key=lambda pair: (abs(pair[1]), pair)):
            if len(held) < MANY:
                held.add(pair)

    def store(self, each):
        value = each.operands[0].rsplit(" ", 1)[-1]
        for place in self.of(each.pointer):
            if place[0] not in self.outside:
                self.kept.setdefault(place, set()).update(list(self.of(value))[:MANY])

    def of_load(self, each):
        places = self.of(each.pointer)
        own = {place for place in places if place[0] not in self.outside}
        held = set().union(*(self.kept.get(place, set()) for place in own))
        if each.operands[0] == "ptr" and (places - own or not places):
            self.outside.add(each.result)
            held = held | {(each.result, 0)}
        return held

    def of_phi(self, each):
        values = re.findall(r"\[\s*([^,\]]+),", each.rest)
        return set().union(*map(self.of, values))

    def of_select(self, each):
        return set().union(*(self.of(part.rsplit(" ", 1)[-1]) for part in each.operands[1:3]))

    def of_freeze(self, each):
        return self.of(each.rest.rsplit(" ", 1)[-1])

    def of_zext(self, each):
        found = re.search(rf"({tvir.OPERAND})\s+to\s", each.rest)
        return self.of(found.group(1)) if found else set()

    of_sext = of_trunc = of_zext

    def both(self, each, change):
        """What an operation may give; of two operands one that isn't known counts as 0."""
        left = self.of(each.operands[0].rsplit(" ", 1)[-1])
        right = self.of(each.operands[-1])
        if not left and not right:
            return set()
        return {(NUMBER, change(a, b)) for base, a in left or ZERO for other, b in right or ZERO
                if base == other == NUMBER}

    def of_add(self, each):
        return self.both(each, lambda a, b: a + b)

    def of_sub(self, each):
        return self.both(each, lambda a, b: a - b)

    def of_mul(self, each):
        return self.both(each, lambda a, b: a * b)

    def of_shl(self, each):
        return self.both(each, lambda a, b: a << b if 0 <= b < 16 else FAR + 1)

    of_or = of_add

    def of_getelementptr(self, each):
        indexes = [part.rsplit(" ", 1)[-1] for part in each.operands[2:]]
        shifts = self.shifts(each.operands[0], indexes)
        return {(root, offset + shift) for root, offset in self.of(each.pointer)
                for shift in shifts}

    def shifts(self, kind, indexes):
        """The numbers of bytes that indexes may add; one that isn't known counts as 0."""
        found = [(f"[1 x {kind}]", 0)]
        for index in indexes:
            numbers = {number for base, number in self.of(index) if base == NUMBER} or {0}
            found = [(inner[0], shift + inner[1]) for text, shift in found for number in numbers
                     for inner in [stepped(text, number, self.named)] if inner][:MANY]
        return {shift for _, shift in found}


# Bounds.

@dataclasses.dataclass
class Needs:
    """What a function asks of the given memory: blocks, and bytes of a block; 0 is nothing."""
    blocks: int = 0
    bytes: int = 0


def needs_of(module, name, turns):
    """The number of pointers from outside through which the function reads or writes, and the
    most bytes of a block, up to 32, that accesses at constant offsets reach, with the greatest
    alignment that one of them asks for. A `getelementptr inbounds` counts by its own offset where
    an access that fits, or a pointer that is returned or stored, is made from it."""
    function = module.functions[name]
    blocks = function.blocks
    values = Values(function, blocks, module.named_types, turns)
    spans, used, ends, align = {}, set(), escapes(blocks, values), 1
    for access in accesses_of(blocks, module.named_types):
        for root, offset in values.of(access.pointer):
            if root in values.outside:
                used.add(root)
                align = max(align, min(access.align, BLOCK_ALIGN))
                spans.setdefault(root, []).append((offset, offset + access.size))
                if offset + access.size <= LARGEST["bytes"]:
                    ends.add(access.pointer)
    made = makers(blocks)
    wanted = set().union(*(tvir.reached_from(end, made) for end in ends))
    for block in blocks:
        for each in block.instructions:
            if each.word == "getelementptr" and each.rest.startswith("inbounds") \
                    and each.result in wanted:
                for root, offset in values.of(each.result):
                    if root in values.outside:
                        spans.setdefault(root, []).append((offset, offset))
    reach = max((span(each) for each in spans.values()), default=0)
    return Needs(min(len(used), LARGEST["blocks"]) or (1 if values.outside else 0),
                 min(reach + (align if align > 1 else 0), LARGEST["bytes"]))


def makers(blocks):
    """For each pointer those that it is made from; a local variable is made from what is stored to
    it, and what is loaded from it is made from the variable."""
    found = {}
    for block in blocks:
        for each in block.instructions:
            if each.word in ("phi", "select", "freeze"):
                found.setdefault(each.result, []).extend(tvir.MENTION.findall(each.rest))
            elif each.word in ("getelementptr", "load"):
                found.setdefault(each.result, []).append(each.pointer)
            elif each.word == "store" and each.operands[0].startswith("ptr "):
                found.setdefault(each.pointer, []).append(each.operands[0].rsplit(" ", 1)[-1])
    return found


def escapes(blocks, values):
    """The pointers that a function returns, or stores to memory from outside."""
    found = set()
    for block in blocks:
        for each in block.instructions:
            if each.word not in ("ret", "store") or not each.operands[0].startswith("ptr "):
                continue
            roots = {root for root, _ in values.of(each.pointer)}
            if each.word == "ret" or roots & values.outside:
                found.add(each.operands[0].rsplit(" ", 1)[-1])
    return found


def span(reached):
    """The most bytes, up to the largest bound, from the first to the last of these offsets."""
    low = min((min(0, begin) for begin, _ in reached if begin >= -LARGEST["bytes"]), default=0)
    ends = (end - low for _, end in reached)
    return max((end for end in ends if 0 < end <= LARGEST["bytes"]), default=0)


def fitted(source, target, name, given):
    """The bounds for a pair: those that the user gave (a map from `blocks` and so on), and for
    the others what both functions need; only those that aren't tv's own."""
    turns = given.get("turns", DEFAULTS["turns"])
    needs = [needs_of(module, name, turns) for module in (source, target)]
    most = Needs(max(each.blocks for each in needs), max(each.bytes for each in needs))
    chosen = dict(given)
    if most.blocks:
        chosen.setdefault("blocks", most.blocks)
    if most.bytes > DEFAULTS["bytes"]:
        chosen.setdefault("bytes", most.bytes)
    return {key: number for key, number in chosen.items() if number != DEFAULTS.get(key)}


def rested_on(source, target, name, chosen):
    """Of some bounds and budgets those that a `correct` of the pair rests on: `turns` where a jump
    of either function goes back, `blocks` and `bytes` where a pointer comes from outside; and the
    budgets."""
    functions = [module.functions[name] for module in (source, target)]
    rests = {"turns": any(map(goes_back, functions)),
             "blocks": any(map(takes_pointers, functions))}
    rests["bytes"] = rests["blocks"]
    return {**{key: chosen.get(key, usual) for key, usual in DEFAULTS.items() if rests[key]},
            **{key: number for key, number in chosen.items() if key not in DEFAULTS}}


def goes_back(function):
    """Whether a jump goes to its own block or to an earlier one of the text, which tv counts as a
    turn. A label that isn't found counts as an earlier one."""
    text = body_of(function)
    places = {}
    for found in LABEL.finditer(text):
        places.setdefault(found.group(1), found.start())
    return any(places.get(found.group(1), -1) <= found.start() for found in JUMP.finditer(text))


def takes_pointers(function):
    """Whether a pointer may come from outside. Only where all parameters and all that is loaded are
    numbers, no global is named, nothing is called and no number becomes a pointer, none does."""
    return not (tvir.DEFINE.search(function.header)
                and all(map(INTEGER.match, function.parameters))) \
        or bool(FROM_OUTSIDE.search(body_of(function)))


def body_of(function):
    """What is behind a function's header, without comments and what is in quotes."""
    return tvir.blank(function.text[function.brace:])


# Reach.

VACUOUS = "tv.vacuous"
STOP, REST = "tv.stop", "tv.rest"
RESULTS = {"void": "ret void", "ptr": "ret ptr null"}


def stopped(function, block, at, after, ends):
    """The function with a run ended before or after line `at` of a block: by `ends`, a terminator.
    All edges stay: the block is cut in two, and its successors' phis name the second part."""
    lines = function.text.splitlines()
    cut = at + 1 if after else at
    quoted = re.escape(block)
    moved = [re.sub(rf",\s*{quoted}\s*\]", f", %{REST} ]", line) for line in lines]
    branch = [f"  br i1 true, label %{STOP}, label %{REST}", f"{REST}:"]
    last = max(number for number, line in enumerate(moved) if line.strip() == "}")
    return "\n".join([*moved[:cut], *branch, *moved[cut:last], f"{STOP}:", f"  {ends}", "}"]) + "\n"


class Reach:
    """Questions for tv about how far a source is defined within the bounds.

    *Vacuous*: S against a target that is `unreachable` alone. That target is undefined on every
    input, so S is undefined or too long on every input where tv says `correct`, and any target
    would have been.

    *An access k*: S with a return right after k, as the source, against S with `unreachable` there
    as the target. Both run as S does up to k; the target is undefined just where it gets past k.
    Where tv says `correct`, each input on which a run of S passes k is one on which S may already
    have been undefined, or too long, before that: so nothing is asked of the target there, and the
    access is *unreached* (never begun) or *undefined* (begun, and no input makes it defined).
    Where tv says `incorrect`, its input is one on which S gets past k with all defined.

    Which accesses are asked about: a source that isn't vacuous returns on some input with all
    defined, so every access in a block that all its returns need is passed there. And a run that
    passes the last access of a block passes those before it, and those of the blocks that dominate
    it. So one question is enough for a block that needs one and dominates no other such block."""

    def __init__(self, module, name):
        self.module, self.name = module, name
        self.function = module.functions[name]
        self.blocks = self.function.blocks
        self.over = tvir.dominators(self.blocks)
        own = own_pointers(self.blocks)
        self.accesses = [access for access in accesses_of(self.blocks, module.named_types)
                         if access.block in self.over and access.pointer not in own]
        kind = self.function.result_type()
        self.returns = RESULTS.get(kind, f"ret {kind} 0")

    def last_ones(self):
        """The accesses that have to be asked about, where the function isn't vacuous."""
        edges = {}
        for block in self.blocks:
            for following in block.successors:
                edges.setdefault(following, []).append(block.name)
        ends = [block.name for block in self.blocks if block.ends() == "ret"
                and block.name in self.over]
        if not ends:
            return []
        always = frozenset.intersection(*(self.over[name] for name in ends))
        useful = set().union(*(tvir.reached_from(name, edges) for name in ends))
        last = {access.block: access for access in self.accesses
                if access.block in useful and access.block not in always}
        over_others = {name for block in last for name in self.over[block] if name != block}
        return [access for block, access in last.items() if block not in over_others]

    def chain(self, access):
        """The accesses that a run to this one passes for certain, in their order, and it."""
        return sorted((each for each in self.accesses
                       if each.block in self.over[access.block]
                       and (each.block != access.block or each.at <= access.at)),
                      key=lambda each: (len(self.over[each.block]), each.at))

    def modules(self, questions):
        """A source and a target for tv with a function for each question: VACUOUS, or an access
        and whether a run is stopped after it."""
        sides = []
        for ends in (self.returns, "unreachable"):
            texts = []
            for number, question in enumerate(questions):
                if question == VACUOUS:
                    whole = self.function.text if ends != "unreachable" \
                        else self.function.unreachable()
                else:
                    access, after = question
                    whole = stopped(self.function, access.block, access.at, after, ends)
                texts.append(self.function.renamed(f"tv.{number}", whole))
            sides.append(self.module.alone(self.name, "".join(texts)).text)
        return sides


def own_pointers(blocks):
    """The allocas of a function and what it derives from them by getelementptr alone: accesses
    through these are limited by no bound."""
    own = set()
    for block in blocks:
        for each in block.instructions:
            if each.word == "alloca" or each.word == "getelementptr" and each.pointer in own:
                own.add(each.result)
    return own
