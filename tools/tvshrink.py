"""Shrinks a pair of functions without the pass that made it.

Shrunk apart, a pair soon has nothing in common, and any two functions that differ are `incorrect`.
So every step changes what both sides have in common, and both in the same way: an instruction of
both becomes a parameter, a branch of both takes one way, a store of both goes. What is on one side
alone is the change that the pass made; of that only what is not used goes.
"""
import re

import tvir

RESULT = re.compile(rf"\s*(%(?:{tvir.NAME}))\s*=\s*(\w+)\s+(.*)")
BRANCH = re.compile(r"\s*br\s+i1\s+[^,]+,\s*label\s+(\S+),\s*label\s+(\S+)\s*$")
EDGE = re.compile(r"\[\s*([^\[\],]+),\s*([^\[\],]+?)\s*\]")
NUMBERED = re.compile(r"%(\d+)\b")
PURE = {"phi", "select", "icmp", "freeze", "getelementptr", "zext", "sext", "trunc", "add", "sub",
        "mul", "udiv", "sdiv", "urem", "srem", "shl", "lshr", "ashr", "and", "or", "xor", "load",
        "alloca"}


class Side:
    """A function as its parameters and the lines of its body, to be changed and printed."""

    def __init__(self, function):
        body = [tvir.bare(line) for line in
                function.text[function.brace + 1:].rsplit("}", 1)[0].splitlines()]
        unnamed = sum(bool(NUMBERED.fullmatch(name)) for name in function.argument_names)
        parts = []
        for part, name in zip(function.parameters, function.argument_names):
            parts.append(part if part.endswith(name) else f"{part} {name}")
        self.header = function.header
        self.parameters = [named(part) for part in parts]
        self.lines = [label_named(named(line)) for line in body if line.strip()]
        if self.lines and not tvir.LABEL.match(self.lines[0]):
            self.lines.insert(0, f"v{unnamed}:")

    def text(self, name):
        """The function's text under a name."""
        begun = tvir.DEFINE.search(self.header)
        depth, end = 1, begun.end()
        while depth:
            depth += (self.header[end] == "(") - (self.header[end] == ")")
            end += 1
        rest = re.sub(r"\s#\d+|\s!\w+ !\d+", "", self.header[end:]).strip()
        return (f"{self.header[:begun.start()]}@{name}({', '.join(self.parameters)}) "
                f"{rest + ' ' if rest else ''}{{\n" + "\n".join(self.lines) + "\n}\n")

    def copy(self):
        other = object.__new__(Side)
        other.header = self.header
        other.parameters, other.lines = list(self.parameters), list(self.lines)
        return other

    def uses(self, name):
        """Whether a value is used, other than by its own line."""
        mention = re.compile(re.escape(name) + r"(?![-\w.$])")
        return any(mention.search(line.split(" = ", 1)[-1]) for line in self.lines)

    def swept(self):
        """Drops what no one uses, and blocks that nothing reaches, until there is none."""
        while self.sweep():
            pass
        return self

    def sweep(self):
        kept = []
        for line in self.lines:
            found = RESULT.match(line)
            if not (found and found.group(2) in PURE and not self.uses(found.group(1))):
                kept.append(line)
        kept = joined(reachable(kept))
        changed = kept != self.lines
        self.lines = kept
        return changed


def named(text):
    return NUMBERED.sub(r"%v\1", text)


def label_named(line):
    return re.sub(r"^(\d+):", r"v\1:", line)


def reachable(lines):
    """The lines without blocks that the first does not reach, nor their entries in phis."""
    blocks = []
    for line in lines:
        label = tvir.LABEL.match(line)
        if label:
            blocks.append(("%" + label.group(1), []))
        if blocks:
            blocks[-1][1].append(line)
    edges = {name: tvir.TARGET.findall(" ".join(body)) for name, body in blocks}
    if not blocks:
        return lines
    seen = tvir.reached_from(blocks[0][0], edges)
    found = []
    for name, body in blocks:
        if name in seen:
            found += [with_edges(line, name, edges, seen) for line in body]
    return found


def joined(lines):
    """The lines with a block put to the end of the only one that jumps to it, where that is the one
    above it, and it has no phi."""
    for at, line in enumerate(lines[1:-1], 1):
        label = tvir.LABEL.match(line)
        following = RESULT.match(lines[at + 1])
        if not label or following and following.group(2) == "phi":
            continue
        name = re.compile(rf"%{re.escape(label.group(1))}(?![-\w.$])")
        mentions = [number for number, each in enumerate(lines) if name.search(each)]
        above = next((tvir.LABEL.match(each).group(1) for each in reversed(lines[:at])
                      if tvir.LABEL.match(each)), None)
        phis = [number for number in mentions if " phi " in lines[number]]
        if mentions and mentions[0] == at - 1 and lines[at - 1].strip().startswith("br label") \
                and len(mentions) - len(phis) == 1 and above:
            rest = [name.sub(f"%{above}", each) for each in lines[at + 1:]]
            return lines[:at - 1] + rest
    return lines


def with_edges(line, block, edges, seen):
    """A phi's line with the entries of those blocks alone that still jump to its own."""
    found = RESULT.match(line)
    if not found or found.group(2) != "phi":
        return line
    kept = [each.group() for each in EDGE.finditer(line)
            if each.group(2) in seen and block in edges.get(each.group(2), ())]
    return line[:line.index("[")] + ", ".join(kept)


def type_of(word, rest):
    """The type of an instruction's result, or None."""
    rest = tvir.FLAGS.sub("", rest, count=1)
    if word == "icmp":
        return "i1"
    if word in ("getelementptr", "alloca"):
        return "ptr"
    if word in ("zext", "sext", "trunc"):
        return rest.rsplit(" to ", 1)[-1].strip()
    found = re.match(r"(i\d+|ptr)\b", tvir.split(rest)[1] if word == "select" else rest)
    return found.group(1) if found else None


def common(sides):
    """The lines that occur on both sides, once each, last first."""
    left, right = (side.lines for side in sides)
    return [line for line in reversed(left) if left.count(line) == right.count(line) == 1]


def steps(sides):
    """The pairs that are one step smaller, the most promising first."""
    for line in common(sides):
        found, branch = RESULT.match(line), BRANCH.match(line)
        kind = found and type_of(found.group(2), found.group(3))
        if branch:
            for label in dict.fromkeys(branch.groups()):
                yield changed(sides, line, f"  br label {label}")
        elif kind:
            yield changed(sides, line, None, f"{kind} {found.group(1)}")
            for operand in operands(found, kind):
                yield [replaced(side, line, found.group(1), operand) for side in sides]
        elif line.strip().startswith("store "):
            yield changed(sides, line, None)
    for part in sides[0].parameters:
        name = part.rsplit(" ", 1)[-1]
        if part in sides[1].parameters and not any(side.uses(name) for side in sides):
            yield [without(side, part) for side in sides]


def operands(found, kind):
    """The operands of an instruction that may take its result's part: those of its type."""
    word, rest = found.group(2), tvir.FLAGS.sub("", found.group(3), count=1)
    if word == "phi":
        edges = EDGE.findall(rest)
        return [edges[0][0]] if len(edges) == 1 else []
    if word in ("icmp", "zext", "sext", "trunc", "load", "alloca", "freeze"):
        return []
    names = re.findall(rf"%(?:{tvir.NAME})", rest)
    return names[:1] if word == "getelementptr" else names[1:] if word == "select" else names


def replaced(side, line, name, operand):
    """A side without a line, and an operand in the place of its result."""
    copy = side.copy()
    copy.lines.remove(line)
    mention = re.compile(re.escape(name) + r"(?![-\w.$])")
    copy.lines = [mention.sub(lambda _: operand, each) for each in copy.lines]
    return copy.swept()


def changed(sides, line, new, parameter=None):
    """Both sides with a line replaced or dropped, and a parameter more."""
    found = []
    for side in sides:
        copy = side.copy()
        at = copy.lines.index(line)
        copy.lines[at:at + 1] = [new] if new else []
        copy.parameters += [parameter] if parameter else []
        found.append(copy.swept())
    return found


def without(side, part):
    copy = side.copy()
    copy.parameters.remove(part)
    return copy


def text_of(items, sides):
    """The module with both sides as @src and @tgt."""
    return items + "\n".join(side.text(name) for name, side in zip(("src", "tgt"), sides))


def shrunk(items, sides, keeps):
    """The smallest pair that steps lead to, as text; `keeps` says of a module's text whether it
    still shows the case."""
    found = True
    while found:
        found = False
        for smaller in steps(sides):
            if keeps(text_of(items, smaller)):
                sides, found = smaller, True
                break
    return text_of(items, sides)
