"""Modules of LLVM IR: their functions, each with all that it reaches, and what is at a position.

Where LLVM is on the machine its own parser reads modules: the program tv-split (llvm/split) prints
them, says where their functions are and which are the same, and cuts each that isn't the same out
with all that it reaches (`modules_by_llvm`). Without it a module is a text that is cut at the
functions that it defines (`Module`), and all else stays around each of them, byte for byte. In
both ways the functions are held against those that `tv` finds (tvinput.py).

Regular expressions read what is cosmetic, such as the names of arguments, and what only chooses a
question, such as bounds: never what a function is, what it reaches, or what is the same.
"""
import dataclasses
import functools
import json
import os
import re
import shutil
import tempfile

import tvlib
from tvlib import Failure

NOT_A_MODULE = 9
FAULT = 2
NAME = r'"[^"]*"|[-\w.$]+'
DEFINE = re.compile(rf"@({NAME})\s*\(")
MENTION = re.compile(rf"[%@](?:{NAME})|#\d+")
LAYOUT = re.compile(r"^target datalayout = .*$", re.M)
QUIET = re.compile(r'"[^"]*"|;[^\n]*')
COMMENT = re.compile(r'("[^"]*")|;[^\n]*')
PLAIN = re.compile(r"[-a-zA-Z$._][-a-zA-Z0-9$._]*")
ESCAPED = re.compile(rb"\\(?:([0-9A-Fa-f]{2})|\\)")
TYPE = re.compile(rf"(%(?:{NAME}))\s*=\s*type\s+(.*)")


def blank(text):
    """The text with spaces for strings and comments; lines stay lines."""
    return QUIET.sub(lambda found: re.sub(r"[^\n]", " ", found.group()), text)


def bare(text):
    """A text without its comments, and without blanks at its end."""
    return COMMENT.sub(lambda found: found.group(1) or "", text).rstrip()


def canonical(name):
    """A name as tv prints it: without quotes where they aren't needed, else with each byte that is
    no plain character in hexadecimal. LLVM's print has other quotes, and `\\\\` for a backslash."""
    if not name.startswith('"'):
        return name
    data = ESCAPED.sub(lambda found: bytes.fromhex(found.group(1).decode()) if found.group(1)
                       else b"\\", name[1:-1].encode("utf-8", "surrogateescape"))
    text = "".join(chr(byte) if 32 <= byte < 127 and byte not in b'"\\' else f"\\{byte:02X}"
                   for byte in data)
    return text if PLAIN.fullmatch(text) else f'"{text}"'


@dataclasses.dataclass(frozen=True)
class Alone:
    """One function as a module: its text, the name that it has there, the first line of the
    function and the number of its lines; `whole` is the function's first line in the whole module.
    Where LLVM didn't cut it, all lines are those of the whole module."""
    text: str
    name: str
    first: int
    count: int
    whole: int

    def line(self, number):
        """The whole module's line for one of this text, as far as it is one of the function."""
        inside = self.first <= number < self.first + self.count
        return number + self.whole - self.first if inside or self.first == self.whole \
            else self.whole

    def parts(self):
        """The text before the function, the function, and the text after it."""
        lines = self.text.splitlines(keepends=True)
        begin, end = self.first - 1, self.first - 1 + self.count
        return ["".join(part) for part in (lines[:begin], lines[begin:end], lines[end:])]

    def replaced(self, text):
        """The same surroundings of another text."""
        before, _, after = self.parts()
        count = len(text.splitlines())
        return dataclasses.replace(self, text=before + text + after, count=count)


@dataclasses.dataclass(frozen=True)
class Function:
    """A function with a body: its name, its first line in the module (from 1), its text. Where LLVM
    cut it out, also the function alone, whose text it has then; whether it is the same in the other
    module; and the attributes that the plugin wrote."""
    name: str
    first: int
    text: str
    alone: Alone = None
    same: bool = False
    notes: dict = dataclasses.field(default_factory=dict)

    @functools.cached_property
    def name_at(self):
        """The offset of the @ of its name: the first one outside strings."""
        return blank(self.text).find("@")

    @functools.cached_property
    def brace(self):
        """The offset of the brace that opens the body."""
        depth, opened = 0, 0
        for found in re.finditer("[{}]", blank(self.text)):
            if found.group() == "{" and depth == 0:
                opened = found.start()
            depth += 1 if found.group() == "{" else -1
        return opened

    @functools.cached_property
    def header(self):
        """The text before the body."""
        return self.text[:self.brace]

    def unreachable(self):
        """The same function with `unreachable` as its whole body."""
        return self.header + "{\n  unreachable\n}\n"

    def renamed(self, name, text=None):
        """The function's text, or another text with its header, with this name there."""
        text = self.text if text is None else text
        found = DEFINE.match(text, self.name_at) if self.name_at >= 0 else None
        return text[:found.start()] + f"@{name}(" + text[found.end():] if found else text

    @functools.cached_property
    def parameters(self):
        """Each parameter's text, type first; [] where the header isn't read."""
        header = blank(self.header)
        found = DEFINE.match(self.header, self.name_at) if self.name_at >= 0 else None
        if not found:
            return []
        inside, depth = "", 1
        for offset in range(found.end(), len(header)):
            depth += (header[offset] == "(") - (header[offset] == ")")
            if depth == 0:
                break
            inside += self.text[offset]
        return [part for part in split(inside) if part]

    @functools.cached_property
    def argument_names(self):
        """`%x` for each parameter; one without a name has its number, as LLVM counts."""
        names, unnamed = [], 0
        for part in self.parameters:
            found = re.search(rf"%(?:{NAME})$", part)
            last = found and found.group()
            if not last or part == last:
                last, unnamed = f"%{unnamed}", unnamed + 1
            elif re.fullmatch(r"%\d+", last):
                unnamed = int(last[1:]) + 1
            names.append(last)
        return names

    def result_type(self):
        """The type that the function returns, e.g. `i32`, or an empty text."""
        found = re.search(rf"(\S+)\s+@(?:{NAME})\s*\(", self.header)
        return found.group(1) if found else ""

    @functools.cached_property
    def blocks(self):
        """Its basic blocks."""
        return blocks_of(self)


def split(text):
    """The parts of a text between its outermost commas, without blanks around them."""
    parts, depth, begun = [], 0, 0
    for found in re.finditer(r"[][(){}<>,]", blank(text) + ","):
        char = found.group()
        if char != ",":
            depth += 1 if char in "([{<" else -1
        elif depth == 0:
            parts.append(text[begun:found.start()].strip())
            begun = found.end()
    return parts


# Cutting a text without LLVM.

# The word define, but not as a label or a part of a name.
DEFINES = re.compile(r"(?<![-\w$.%@!#^])define(?![-\w$.:])")
ITEM_BEGINS = re.compile(r"\s*(?:$|define\b|declare\b|attributes\b|target\b|source_filename\b"
                         r"|module\b|uselistorder|[@%!$^])")


def functions_of(text):
    """The functions with a body of a module's text, in order."""
    quiet, lines, found = blank(text), 1, []
    counted = 0
    for begin in (each.start() for each in DEFINES.finditer(quiet)):
        end = end_of(quiet, begin)
        lines += text.count("\n", counted, begin)
        counted = begin
        found.append(function_at(text, quiet, begin, end, lines))
    return found


def end_of(quiet, begin):
    """The offset after the function that begins here: after the brace that closes a group and that
    an item of the module, or nothing, follows; else that of the next function."""
    name = quiet.find("@", begin)
    following = DEFINES.search(quiet, begin + 1)
    limit = following.start() if following else len(quiet)
    depth = 0
    for found in re.finditer("[{}]", quiet[:limit][begin:]):
        depth += 1 if found.group() == "{" else -1
        at = begin + found.end()
        if depth == 0 and at > name >= 0 and ITEM_BEGINS.match(quiet, at):
            return at + 1 if quiet[at:at + 1] == "\n" else at
    return limit


def function_at(text, quiet, begin, end, line):
    """The function in a part of a text. One without a name is among the functions all the same, so
    that no `define` is passed over."""
    name = DEFINE.match(text, quiet.find("@", begin, end)) if "@" in quiet[begin:end] else None
    return Function(canonical(name.group(1)) if name else f"line.{line}", line, text[begin:end])


class Module:
    """A module: its text, and its functions by their names. `document` is the answer of tv-split
    that it is from, None where the text is cut without LLVM; `given` is the text that the user
    gave, where `text` is LLVM's print of it. `raw` is the module that this one was written out from
    by the plugin, or None. `fault` says in what tv found other functions in it than these."""

    def __init__(self, text, path="", raw=None, functions=None, document=None, given=None):
        self.text, self.path, self.raw = text, path, raw
        self.document, self.given = document, text if given is None else given
        self.fault = ""
        self.lines = text.splitlines()
        self.functions = {}
        for function in functions_of(text) if functions is None else functions:
            if function.name in self.functions:
                raise Failure(NOT_A_MODULE, f"{path or 'module'}:{function.first}:1: name twice: "
                                            f"@{function.name}")
            self.functions[function.name] = function
        self.bodies = tuple(self.functions.values())

    @functools.cached_property
    def gaps(self):
        """The parts of the text outside its functions, one more than there are functions."""
        found, begun = [], 0
        for function in self.bodies:
            at = self.text.index(function.text, begun)
            found.append(self.text[begun:at])
            begun = at + len(function.text)
        return [*found, self.text[begun:]]

    def alone(self, name, text=None):
        """One function, or another text in its place, as a module: with all that it reaches where
        LLVM cut it out, else with all that is outside functions. Where LLVM can't cut it out, since
        it names a block of another function, the function is there alone, which tv refuses. A layout
        that the plugin found to say nothing of the function is left out; its line stays, empty."""
        function = self.functions[name]
        if function.alone:
            found = function.alone
        elif self.document:
            found = Alone(function.text, name, 1, function.text.count("\n"), function.first)
        else:
            found = self.among_gaps(function)
        if "layout" in self.noted(name, "tv-rules"):
            found = dataclasses.replace(found, text=LAYOUT.sub("", found.text, count=1))
        return found if text is None else found.replaced(text)

    def among_gaps(self, function):
        """A function with all that is outside functions, on the lines that they have."""
        text = ""
        for gap, body in zip(self.gaps, self.bodies):
            kept = body.first == function.first
            text += gap + (function.text if kept else "\n" * body.text.count("\n"))
        return Alone(text + self.gaps[-1], function.name, function.first,
                     len(function.text.splitlines()), function.first)

    def noted(self, name, key):
        """The words of an attribute of a function that the plugin wrote, e.g. `tv-rules`."""
        return self.functions[name].notes.get(key, "").split() if self.raw else []

    def function_on(self, line):
        """The name of the function that a line is of, or None."""
        return next((each.name for each in self.bodies
                     if each.first <= line < each.first + each.text.count("\n")), None)

    def without(self, names):
        """The text with empty lines for these functions."""
        lines = self.text.split("\n")
        for function in self.bodies:
            if function.name in names:
                begin, count = function.first - 1, function.text.count("\n")
                lines[begin:begin + count] = [""] * count
        return "\n".join(lines)

    @functools.cached_property
    def given_lines(self):
        return self.given.splitlines()

    def shown(self, number):
        """A line's text, where the file that the user gave has another one there; else nothing."""
        if self.given is self.text or not 1 <= number <= len(self.lines):
            return ""
        text = self.lines[number - 1]
        return "" if self.given_lines[number - 1:number] == [text] else text.strip()

    def given_line(self, name):
        """The line of the user's file on which a function probably begins, else that here."""
        first = self.functions[name].first
        if self.given is self.text:
            return first
        begins = re.compile(rf"\s*define\b.*@\"?{re.escape(name.strip(chr(34)))}\"?\s*\(")
        found = (at for at, line in enumerate(self.given_lines, 1) if begins.match(line))
        return next(found, first)

    def rest(self, line, column):
        """The text of a line from a column (in bytes, from 1) on; empty at the end."""
        if not 1 <= line <= len(self.lines):
            return ""
        data = self.lines[line - 1].encode("utf-8", "surrogateescape")[max(0, column - 1):]
        return data.decode("utf-8", "replace")

    def word_at(self, line, column):
        """The token at a position, e.g. `call`; numbers and names only by their class."""
        return token(self.rest(line, column))

    @functools.cached_property
    def named_types(self):
        """The texts of the types that the module names, e.g. `%struct.s` to `{ i32, i8 }`."""
        found = filter(None, map(TYPE.match, self.lines))
        return {each.group(1): bare(each.group(2)) for each in found}


def names_of(source, target):
    """The functions of two modules in a report's order: the source's, then the target's others."""
    return list(dict.fromkeys([*source.functions, *target.functions]))


def is_same(source, target, name):
    """Whether a function is the same in both modules with all that it reaches, as LLVM prints that;
    without LLVM: whether its bytes are, and those of all that is outside functions."""
    source, target = source.raw or source, target.raw or target
    one, other = source.functions.get(name), target.functions.get(name)
    if one is None or other is None:
        return False
    if one.alone and other.alone:
        return one.alone.text == other.alone.text
    if source.document or target.document:
        return source.document is target.document and one.same and other.same
    return source.text == target.text and one.text == other.text \
        or one.text == other.text and source.gaps == target.gaps


# Cutting modules by LLVM.

# What a print numbers anew in each module.
NUMBERED = re.compile(r"([#!%])\d+")
SPLIT_SECONDS = 300


@functools.lru_cache(maxsize=None)
def split_program():
    """The program tv-split: what TV_SPLIT says, else that of this tree, else `tv-split` on the PATH;
    None where there is none, or TV_LLVM_NONE=1 asks to do without."""
    built = os.path.join(os.path.dirname(tvlib.HERE), "llvm", "build", "tv-split")
    if os.environ.get("TV_LLVM_NONE") == "1":
        return None
    if os.environ.get("TV_SPLIT") or any(map(shutil.which, (built, "tv-split"))):
        return tvlib.program("TV_SPLIT", built, "tv-split")
    return None


def modules_by_llvm(texts, paths):
    """The modules in one or two texts (bytes, bitcode too), as tv-split reads them; `paths` are the
    names for messages."""
    with tempfile.TemporaryDirectory(prefix="tv-") as folder:
        files = [os.path.join(folder, name) for name in ("before", "after")[:len(texts)]]
        for file, data in zip(files, texts):
            with open(file, "wb") as out:
                out.write(data)
        done = tvlib.run([split_program(), *files], seconds=SPLIT_SECONDS)
    if done.status != 0:
        raise refusal_of(done, files, paths)
    document = read_document(done.output, len(texts))
    modules = [module_in(document, at, path, data)
               for at, (path, data) in enumerate(zip(paths, texts))]
    if len(modules) == 2:
        check_same(*modules)
    return modules


def refusal_of(done, files, paths):
    """Why tv-split gave no document."""
    lines = done.errors.decode("utf-8", "replace").strip().splitlines()
    said = lines[-1] if lines else ""
    if done.status in (1, 2) and done.status <= len(files) and said.startswith("tv-split: "):
        said = said[len("tv-split: "):]
        for file, path in zip(files, paths):
            said = path + said[len(file):] if said.startswith(file + ":") else said
        return Failure(NOT_A_MODULE, said)
    ended = "took too long" if done.status is None else f"ended with status {done.status}"
    return Failure(FAULT, f"{' '.join(paths)}: tv-split {ended}{said and ': ' + said}")


def read_document(output, number):
    """The document that tv-split wrote, with its texts as Python has them elsewhere."""
    try:
        document = json.loads(output, object_hook=lambda found: {
            key: decoded(value) if isinstance(value, str) else value
            for key, value in found.items()})
        whole = document["tv-split"] == 1 and document["end"] is True \
            and len(document["modules"]) == number
    except (ValueError, LookupError, TypeError):
        whole = False
    if not whole:
        raise Failure(FAULT, "tv-split gave no whole document")
    return document


def decoded(text):
    """A text whose characters are bytes."""
    return text.encode("latin-1").decode("utf-8", "surrogateescape")


def module_in(document, at, path, data):
    """A module of a document, held against its own print."""
    try:
        found = document["modules"][at]
        text = found["text"]
        lines = text.splitlines(keepends=True)
        functions = [function_in(each, lines) for each in found["functions"]]
    except (LookupError, TypeError, ValueError, AttributeError):
        raise Failure(FAULT, f"{path}: tv-split gave no whole document") from None
    given = text if is_bitcode(data) else data.decode("utf-8", "surrogateescape")
    return Module(text, path, functions=functions, document=document, given=given)


def function_in(found, lines):
    """A function of a document. Its lines have to be those of a function."""
    text = "".join(lines[found["first"] - 1:found["first"] - 1 + found["lines"]])
    alone = found.get("alone")
    if alone:
        alone = Alone(alone["text"], canonical(alone["name"]), alone["first"], alone["lines"],
                      found["first"])
        text = alone.parts()[1]
    if not text.startswith("define ") or not text.endswith("}\n") or found["lines"] < 1 \
            or alone and alone.count != found["lines"]:
        raise ValueError("not a function")
    notes = {note["key"]: note["value"] for note in found["notes"]}
    return Function(canonical(found["name"]), found["first"], text, alone, found["same"] is True,
                    notes)


def check_same(source, target):
    """Whether what tv-split calls the same is so in the prints, but for what LLVM numbers anew."""
    for name, one in source.functions.items():
        other = target.functions.get(name)
        if one.same != (other is not None and other.same) or one.same and \
                one.text != other.text and unnumbered(one.text) != unnumbered(other.text):
            raise Failure(FAULT, f"{source.path}: tv-split calls @{name} the same, and the modules "
                                 "have different texts of it")
        if not one.same and one.alone and other is not None and other.alone \
                and one.alone.text == other.alone.text:
            raise Failure(FAULT, f"{source.path}: tv-split calls @{name} different, and gives one "
                                 "text for both")


def unnumbered(text):
    return "\n".join(line.rstrip() for line in NUMBERED.sub(r"\1", bare(text)).splitlines())


TOKEN = re.compile(r'(?P<local>%[-"\w.$]+)|(?P<global>@[-"\w.$]+)|(?P<number>-?\d[\w.+]*)'
                   r'|(?P<type>i\d+\b)|(?P<string>"[^"]*"?)'
                   r'|(?P<word>[A-Za-z_][\w.]*)|(?P<mark>\.{3}|\S)')
CLASSES = {"local": "%name", "global": "@name", "number": "number", "string": "string",
           "type": "iN"}


def token(text):
    """The first token of a text; numbers and names only by their class."""
    found = TOKEN.match(text.lstrip())
    if not found:
        return "end"
    return CLASSES.get(found.lastgroup, found.group())


def is_text(data):
    """Whether these bytes are a module's text, rather than bitcode or nothing."""
    return bool(data.strip()) and b"\0" not in data and not is_bitcode(data)


def is_bitcode(data):
    return data.startswith((b"BC\xc0\xde", b"\xde\xc0\x17\x0b"))


# Functions as blocks.

LABEL = re.compile(rf"\s*({NAME}):")
INSTRUCTION = re.compile(rf"\s*(?:(%(?:{NAME}))\s*=\s*)?(?:(?:tail|musttail|notail)\s+)?(\w+)\b\s*(.*)",
                         re.S)
FLAGS = re.compile(r"(?:(?:inbounds|nuw|nsw|nusw|exact|disjoint|nneg|samesign|volatile|atomic"
                   r"|fast|inrange\([^)]*\))\s+)*")
OPERAND = rf"%(?:{NAME})|-?\d+|true|false|null"
POINTER = re.compile(rf"\bptr\s+({OPERAND})$")
TARGET = re.compile(rf"label\s+(%(?:{NAME}))")


@dataclasses.dataclass
class Instruction:
    """An instruction: the index of its line in the function's text, result, word, the rest."""
    at: int
    result: str
    word: str
    rest: str

    @functools.cached_property
    def operands(self):
        """What is between the commas after the word and its flags."""
        return split(FLAGS.sub("", self.rest, count=1))

    @functools.cached_property
    def pointer(self):
        """The second operand where it is a pointer: that of a load, store or getelementptr."""
        found = POINTER.search(self.operands[1]) if len(self.operands) > 1 else None
        return found.group(1) if found else ""


@dataclasses.dataclass
class Block:
    """A basic block: its name as `%name`, its instructions, and the names of its successors."""
    name: str
    instructions: list
    successors: list

    def ends(self):
        return self.instructions[-1].word if self.instructions else ""


def blocks_of(function):
    """The blocks of a function as LLVM prints it: one instruction a line."""
    unnamed = [name for name in function.argument_names if re.fullmatch(r"%\d+", name)]
    blocks = [Block(f"%{len(unnamed)}", [], [])]
    lines = function.text.splitlines()
    begun = function.header.count("\n") + 1
    depth = 0
    for at in range(begun, len(lines)):
        line = bare(lines[at])
        label = LABEL.match(line)
        if label and depth == 0:
            name = "%" + label.group(1)
            if blocks[-1].instructions:
                blocks.append(Block(name, [], []))
            blocks[-1].name = name
            line = line[label.end():]
        if not line.strip() or line.strip() == "}":
            continue
        if depth > 0 and blocks[-1].instructions:
            blocks[-1].instructions[-1].rest += " " + line.strip()
        else:
            found = INSTRUCTION.match(line)
            if found:
                blocks[-1].instructions.append(Instruction(at, found.group(1) or "",
                                                           found.group(2), found.group(3)))
        quiet = blank(line)
        depth = max(0, depth + quiet.count("[") - quiet.count("]"))
    for block in blocks:
        ends = block.instructions[-1].rest if block.instructions else ""
        block.successors = list(dict.fromkeys(TARGET.findall(ends)))
    return blocks


def reached_from(start, edges):
    """The nodes that can be reached from `start` by `edges`, a map from a node to its next ones."""
    seen, queue = {start}, [start]
    while queue:
        for following in edges.get(queue.pop(), ()):
            if following not in seen:
                seen.add(following)
                queue.append(following)
    return seen


def dominators(blocks):
    """For each block that the entry reaches, the names of the blocks on every path to it."""
    edges = {block.name: block.successors for block in blocks}
    entry = blocks[0].name
    names = reached_from(entry, edges)
    order = [block.name for block in blocks if block.name in names]
    before = {name: [] for name in order}
    for name in order:
        for following in edges[name]:
            if following in before:
                before[following].append(name)
    found = {name: frozenset(order) for name in order}
    found[entry] = frozenset([entry])
    changed = True
    while changed:
        changed = False
        for name in order[1:] if order and order[0] == entry else order:
            if name == entry:
                continue
            new = frozenset.intersection(*(found[each] for each in before[name])) | {name}
            if new != found[name]:
                found[name], changed = new, True
    return found
