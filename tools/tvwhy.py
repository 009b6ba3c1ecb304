"""What a refusal is about: the words at its position, and what to do about it."""
import re

import tvir

CALLS = {"call", "tail", "musttail", "notail", "invoke", "callbr"}
FLOATS = {"half", "bfloat", "float", "double", "fp128", "x86_fp80", "ppc_fp128", "fadd", "fsub",
          "fmul", "fdiv", "frem", "fneg", "fcmp", "fptrunc", "fpext", "fptoui", "fptosi", "uitofp",
          "sitofp"}
VECTORS = {"extractelement", "insertelement", "shufflevector", "<"}
STRUCTS = {"extractvalue", "insertvalue", "{", "["}
CASTS = {"ptrtoint", "inttoptr", "bitcast", "addrspacecast"}
ATOMICS = {"atomicrmw", "cmpxchg", "fence", "atomic", "volatile"}
ATTRIBUTES = {"noalias", "nocapture", "captures", "nonnull", "readonly", "readnone", "writeonly",
              "returned", "signext", "zeroext", "inreg", "dereferenceable",
              "dereferenceable_or_null", "range", "align", "byval", "sret", "nofree", "noext",
              "immarg", "swiftself", "swifterror", "nest", "nofpclass", "initializes", "writable",
              "dead_on_unwind", "preallocated", "inalloca", "elementtype", "allocptr", "allocalign"}

ADVICE = {
    "call": "calls are not read: inline them on both sides first (--before 'always-inline' or "
            "'inline'), or give the pass functions without calls",
    "intrinsic": "intrinsics are not read: --lower writes many out (docs/PLUGIN.md); else leave out "
                 "the pass that makes it, or check the passes one at a time (tools/opt-tv with "
                 "TV_STEPS=1)",
    "attribute": "--lower drops it, and marks the row where it may matter (docs/PLUGIN.md); by hand: "
                 "take it out on both sides, where `correct` then holds for what a caller promises, "
                 "and `incorrect` may come from its absence",
    "metadata": "--lower drops it, and marks the row (docs/PLUGIN.md); clang writes no !tbaa with "
                "-fno-strict-aliasing, and no !dbg without -g",
    "floating point": "floating point is not read: leave the function out (--function, or a line "
                      "of tv-baseline)",
    "vector": "vectors are not read: check the scalar pass, or run 'scalarizer' on both sides",
    "struct": "--lower writes fields in bytes (docs/PLUGIN.md), as 'instcombine' on both sides does "
              "with constant offsets (--before 'function(sroa,instcombine)'); 'sroa' takes values "
              "apart",
    "global": "--lower makes one variable a parameter (docs/PLUGIN.md); by hand: pass the addresses "
              "of several as parameters on both sides",
    "undef": "a jump, a phi, a division, an access or a pointer would depend on undef, or a name on "
             "more than 64 of them: freeze it first, or put a parameter for it",
    "pointer cast": "casts of pointers are not read: write the address by getelementptr",
    "atomic": "atomic and volatile accesses are not read",
    "type": "a type that is not read here: an integer has 1 to 64 bits, a pointer is ptr",
    "data layout": "tv judges 64-bit little-endian targets: give both modules such a layout; "
                   "--lower takes it away where a function has no memory",
    "limit": "past a limit of docs/REPORT.md: make the number or the function smaller",
    "text": "not LLVM IR as opt prints it: run `opt -S -passes=verify` on the file",
    "other": "not read: docs/REPORT.md lists what is",
}


def explained(module, reason, line, column):
    """What is at the position of a refusal, and the class of ADVICE that it belongs to."""
    rest = module.rest(line, column)
    word = raw(rest)
    if reason == "data-layout":
        found = re.search(r'"([^"]*)"?', module.rest(line, 1))
        return f"target datalayout {found.group(0) if found else ''}".strip(), "data layout"
    if word in CALLS:
        return called(rest)
    if word in ATTRIBUTES:
        found = re.match(rf"\s*{word}(\([^()]*\))?", rest)
        return f"attribute {found.group().strip()}", "attribute"
    if word.startswith("!"):
        return f"metadata {word}", "metadata"
    if word.startswith("@"):
        return f"global {word}", "global"
    if word in module.named_types:
        return f"type {word}", "struct"
    if word.startswith("%") and reason == "Unsupported":
        return f"name {word}", "other"
    return word or "the end", class_of(word, reason)


def kind_of(what):
    """What is at a position without numbers of its own, as tables count it."""
    return re.sub(r"\(.*\)", "(..)", what) if what.startswith("attribute ") else what


def raw(text):
    """The first token of a text as it is."""
    text = text.lstrip()
    found = re.match(r"![-\w.$]+", text) or tvir.TOKEN.match(text)
    return found.group() if found else ""


def called(rest):
    """What a call calls."""
    found = re.search(rf"@({tvir.NAME})", rest)
    if re.search(r"\basm\b", rest) and not (found and found.start() < rest.index("asm")):
        return "call of inline asm", "call"
    if found and found.group(1).startswith("llvm."):
        return f"call @{found.group(1)}", "intrinsic"
    if found:
        return f"call @{found.group(1)}", "call"
    return "call of a pointer", "call"


def class_of(word, reason):
    """The class of advice for a word that is no call, attribute, name or metadata."""
    for words, kind in ((FLOATS, "floating point"), (VECTORS, "vector"), (STRUCTS, "struct"),
                        (CASTS, "pointer cast"), (ATOMICS, "atomic")):
        if word in words:
            return kind
    if word == "undef" or reason == "UndefUse":
        return "undef"
    if re.fullmatch(r"i\d+|ptr", word):
        return "type"
    if reason == "Limit":
        return "limit"
    if reason in ("Unsupported", "TypeClash"):
        return "other"
    return "text"
