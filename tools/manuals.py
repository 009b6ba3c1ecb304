#!/usr/bin/env python3
"""Makes the man pages and the shells' completions of the scripts from their options.

    tools/manuals.py            name the files that aren't up to date
    tools/manuals.py --write    write them

The options of tv-check and tv-tree are those of their parsers, those of opt-tv the words of its
usage; the descriptions are the scripts' own. The files are docs/tv-check.1, docs/opt-tv.1,
docs/tv-tree.1, and tools/completions/ with a file for each script and shell. None is edited by hand.

Status: 0 all are up to date, 1 some aren't, 4 the command line.
"""
import argparse
import dataclasses
import importlib.machinery
import importlib.util
import os
import pathlib
import re
import sys
import textwrap

import tvlib

TOP = os.path.dirname(tvlib.HERE)
SCRIPTS = ["tv-check", "opt-tv", "tv-tree"]
DATE = "2026-12-02"
MADE = "Made by tools/manuals.py from the options of {}; not to be edited."
FILES = {"FILE", "BASELINE", "REPORT"}
FOLDERS = {"FOLDER", "DIR"}
SEE_ALSO = "docs/TOOLS.md, docs/PLUGIN.md and docs/CI.md of the repository; tv(1)"


@dataclasses.dataclass
class Option:
    """An option: its names, the word for its value (empty where it takes none), whether the value
    may be left out, the values that there are where these are few, its help, what stands between
    name and value, and whether it may be repeated."""
    names: list
    value: str = ""
    optional: bool = False
    choices: list = dataclasses.field(default_factory=list)
    help: str = ""
    sign: str = "="
    repeated: bool = False

    def long(self):
        return next((name for name in self.names if name.startswith("--")), "")

    def takes(self):
        """What the value is: `file`, `folder`, `choice`, `text`, or an empty text."""
        if self.choices:
            return "choice"
        if not self.value:
            return ""
        return "file" if self.value in FILES else "folder" if self.value in FOLDERS else "text"


@dataclasses.dataclass
class Command:
    """A script: its name, the paragraphs of its description, its options, and those of each of its
    subcommands with the subcommand's help."""
    name: str
    paragraphs: list
    options: list
    commands: dict = dataclasses.field(default_factory=dict)

    def function(self):
        return "_" + self.name.replace("-", "_")


# Reading the scripts.

def loaded(name):
    """A script as a module."""
    loader = importlib.machinery.SourceFileLoader(name.replace("-", "_"),
                                                  os.path.join(tvlib.HERE, name))
    module = importlib.util.module_from_spec(importlib.util.spec_from_loader(loader.name, loader))
    loader.exec_module(module)
    return module


def options_of(parser, forms):
    """The options of a parser, without those that it hides; `forms` are those whose value may be
    left out."""
    found = []
    for action in parser._actions:
        if not action.option_strings:
            continue
        value = "" if action.nargs == 0 else action.metavar or action.dest.upper()
        shown = action.help != argparse.SUPPRESS
        found.append(Option(list(action.option_strings), value, action.dest in forms,
                            list(action.choices or []), action.help if shown else "",
                            repeated=isinstance(action, argparse._AppendAction)))
    return [option for option in found if option.help]


def options_in_usage(text):
    """The options that stand in the usage of a script without a parser, with what its description
    says of each."""
    usage = " ".join(paragraphs_of(text)[1])
    found = [Option(["-h", "--help"], help="show this help message and exit")]
    for word, value in re.findall(r"(--[a-z-]+)(?: \[?([A-Z]+)\]?)?", usage):
        found.append(Option([word], value, help=said_of(word, text), sign=" "))
    return found


def said_of(word, text):
    """The words behind an option in a description."""
    flat = re.sub(r"\s+", " ", text)
    found = re.search(rf"{word}\b(?: \[?[A-Z]+\]?)?(?:   ?|,? )(?!\[)([^.;(]*)", flat)
    entry = re.search(rf"{word}\s{{2,}}(.*)", text)
    said = entry.group(1) if entry else found.group(1) if found else ""
    return re.sub(r"^1: ", "", said.strip())


def paragraphs_of(text):
    """The paragraphs of a description as lists of lines."""
    return [part.splitlines() for part in re.split(r"\n\s*\n", text.strip("\n"))]


def command_of(name):
    """A script's command line."""
    module = loaded(name)
    paragraphs = paragraphs_of(module.__doc__)
    if not hasattr(module, "parser_of"):
        return Command(name, paragraphs, options_in_usage(module.__doc__))
    parser = module.parser_of()
    command = Command(name, paragraphs, options_of(parser, getattr(module, "FORMS", ())))
    for action in parser._actions:
        if isinstance(action, argparse._SubParsersAction):
            for each in action._choices_actions:
                inner = options_of(action.choices[each.dest], ())
                command.commands[each.dest] = (each.help, inner)
    return command


# bash.

BASH = """\
# {made}
{function}() {{
    local word=${{COMP_WORDS[COMP_CWORD]}} before=${{COMP_WORDS[COMP_CWORD-1]}} words
    if [ "$word" = "=" ]; then
        word=
    elif [ "$before" = "=" ]; then
        before=${{COMP_WORDS[COMP_CWORD-2]}}
    fi
    COMPREPLY=()
    case $before in
{values}    esac
{words}
    case $word in
        -*) mapfile -t COMPREPLY < <(compgen -W "$words" -- "$word") ;;
{first}    esac
}}
complete -o default -F {function} {name}
"""


def bash_of(command):
    every = [*command.options, *(option for _, options in command.commands.values()
                                 for option in options)]
    values = {}
    for option in every:
        for name in option.names:
            if option.takes() and not (option.optional and name == option.long()):
                values.setdefault(bash_value(option), {})[name] = None
    lines = "".join(f"        {'|'.join(names)}) {said}return ;;\n"
                    for said, names in values.items())
    if command.commands:
        words = "    case ${COMP_WORDS[1]} in\n" + "".join(
            f'        {name}) words="{names_in(options)}" ;;\n'
            for name, (_, options) in command.commands.items()) + \
            f'        *) words="{names_in(command.options)}" ;;\n    esac'
        first = ('        *) if [ "$COMP_CWORD" = 1 ]; then mapfile -t COMPREPLY < <(compgen -W '
                 f'"{" ".join(command.commands)}" -- "$word"); fi ;;\n')
    else:
        words, first = f'    words="{names_in(command.options)}"', ""
    return BASH.format(made=MADE.format(command.name), function=command.function(),
                       name=command.name, values=lines, words=words, first=first)


def bash_value(option):
    """The command that completes an option's value."""
    kind = option.takes()
    if kind == "choice":
        return f'mapfile -t COMPREPLY < <(compgen -W "{" ".join(option.choices)}" -- "$word"); '
    if kind == "folder":
        return 'compopt -o filenames; mapfile -t COMPREPLY < <(compgen -d -- "$word"); '
    return "" if kind == "file" else "compopt +o default; "


def names_in(options):
    return " ".join(name for option in options for name in option.names)


# zsh.

def zsh_of(command):
    head = f"#compdef {command.name}\n# {MADE.format(command.name)}\n"
    if not command.commands:
        return head + "_arguments -S \\\n" + zsh_options(command.options, "  ") + "  '*:file:_files'\n"
    parts = [head, "local curcontext=$curcontext state line\n_arguments -C \\\n",
             zsh_options(command.options, "  "),
             "  '1:command:((" + " ".join(f'{name}\\:"{said}"' for name, (said, _)
                                          in command.commands.items()) + "))' \\\n",
             "  '*::argument:->rest' && return\n", "case $words[1] in\n"]
    for name, (_, options) in command.commands.items():
        parts.append(f"  {name})\n    _arguments -S \\\n{zsh_options(options, '      ')}"
                     "      '*:file:_files' ;;\n")
    return re.sub(r"(\.S[HS] .*\n)\.PP\n", r"\1", "".join(parts)) + "esac\n"


def zsh_options(options, indent):
    """A line of `_arguments` for each option."""
    lines = []
    for option in options:
        said = re.sub(r"([\[\]:\\])", r"\\\1", option.help).replace("'", "'\\''")
        value = zsh_value(option)
        names = [name + ("=-" if option.optional and name.startswith("--") else
                         "" if not value or option.sign == " " else
                         "=" if name.startswith("--") else "+")
                 for name in option.names]
        if option.repeated:
            lines.append(f"{indent}'*'{{{','.join(names)}}}'[{said}]{value}' \\\n")
        elif len(names) == 1:
            lines.append(f"{indent}'{names[0]}[{said}]{value}' \\\n")
        else:
            lines.append(f"{indent}'({' '.join(option.names)})'{{{','.join(names)}}}'[{said}]{value}'"
                         " \\\n")
    return "".join(lines)


def zsh_value(option):
    kind = option.takes()
    if not kind:
        return ""
    action = {"file": "_files", "folder": "_files -/", "text": " ",
              "choice": f"({' '.join(option.choices)})"}[kind]
    return f"{'::' if option.optional else ':'}{option.value or 'value'}:{action}"


# fish.

def fish_of(command):
    lines = [f"# {MADE.format(command.name)}"]
    lines += [fish_option(command.name, option, "") for option in command.options]
    for name, (said, options) in command.commands.items():
        lines.append(f"complete -c {command.name} -n __fish_use_subcommand -f -a {name} "
                     f"-d {fish_quoted(said)}")
        where = f" -n '__fish_seen_subcommand_from {name}'"
        lines += [fish_option(command.name, option, where) for option in options
                  if "--help" not in option.names]
    return "\n".join(lines) + "\n"


def fish_option(command, option, where):
    names = "".join(f" -l {name[2:]}" if name.startswith("--") else f" -s {name[1:]}"
                    for name in option.names)
    takes = {"": "", "file": "" if option.optional else " -r -F", "text": " -x",
             "folder": " -x -a '(__fish_complete_directories)'",
             "choice": f" -x -a '{' '.join(option.choices)}'"}[option.takes()]
    return f"complete -c {command}{where}{names}{takes} -d {fish_quoted(option.help)}"


def fish_quoted(text):
    return "'" + text.replace("\\", "\\\\").replace("'", "\\'") + "'"


# Man pages.

def roff(text):
    """A text for roff: no line is a request, and `-` is the one that is typed."""
    text = text.replace("\\", "\\e").replace("-", "\\-")
    return re.sub(r"^([.'])", r"\\&\1", text, flags=re.M)


def man_of(command):
    summary, usage, *rest = command.paragraphs
    name = roff(command.name)
    parts = [f'.\\" {MADE.format(command.name)}\n.TH {command.name.upper()} 1 "{DATE}" tv\n',
             f".SH NAME\n{name} \\-\n{filled(lowered(' '.join(summary)))}",
             f".SH SYNOPSIS\n{literal(usage)}"]
    status = [part for part in rest if part[0].startswith("Status:")]
    parts.append(".SH DESCRIPTION\n" + "".join(
        described(part) for part in rest if part not in status))
    parts.append(".SH OPTIONS\n" + listed(command.options))
    for each, (said, options) in command.commands.items():
        parts.append(f".SS {roff(command.name)} {each}: {roff(said)}\n{listed(options)}")
    if status:
        parts.append(".SH EXIT STATUS\n" + "".join(map(described, status)))
    parts.append(".SH ENVIRONMENT\n" + environment(command))
    return re.sub(r"(\.S[HS] .*\n)\.PP\n", r"\1", "".join(parts)) + f".SH SEE ALSO\n{filled(SEE_ALSO)}"


def filled(text):
    """A text in short lines, for roff."""
    return roff("\n".join(textwrap.wrap(text, 72, break_long_words=False,
                                        break_on_hyphens=False))) + "\n"


def lowered(text):
    return text[0].lower() + text[1:].rstrip(".")


def literal(lines):
    return ".nf\n" + "".join(roff(line[4:].rstrip()) + "\n" for line in lines) + ".fi\n"


def described(lines):
    """A paragraph: text, entries of a name and what it is, or lines as they are typed."""
    if not lines[0].startswith("    "):
        return ".PP\n" + filled(" ".join(line.strip() for line in lines))
    entries = [re.match(r"    (\S.*?)(?:\s{2,}(\S.*))?$", line) for line in lines]
    if not all(entries) and not any(entry and entry.group(2) for entry in entries):
        return literal(lines)
    text = ""
    for line, entry in zip(lines, entries):
        if entry and entry.group(2):
            text += f".TP\n.B {roff(entry.group(1))}\n{filled(entry.group(2))}"
        elif entry and not line.startswith("     "):
            text += f".PP\n{filled(line.strip())}"
        else:
            text += filled(line.strip())
    return text


def listed(options):
    """The options as a list."""
    text = ""
    for option in options:
        heads = []
        for name in option.names:
            value = "|".join(option.choices) or option.value
            sign = option.sign if name.startswith("--") else " "
            shown = f"{sign}{value}" if value else ""
            heads.append(roff(f"{name}[{shown}]" if option.optional and shown else name + shown))
        text += f".TP\n.B {', '.join(heads)}\n{filled(option.help)}"
    return text


def environment(command):
    """The variables that the description names, as tvlib describes them."""
    known = re.findall(r"^    (TV\w*)\s{2,}((?:.*\n)(?:\s{8,}.*\n)*)", tvlib.__doc__, re.M)
    whole = "\n".join(line for part in command.paragraphs for line in part)
    named = re.findall(r"\bTV\w*", whole)
    text = ""
    for name, said in known:
        if name in named or name in ("TV", "TV_ARGS", "TV_OPT"):
            text += f".TP\n.B {name}\n{filled(' '.join(said.split()))}"
    return text


# All files.

def files():
    """The text of each file, by its path in the repository."""
    found = {}
    for command in map(command_of, SCRIPTS):
        found[f"docs/{command.name}.1"] = man_of(command)
        for shell, text in (("bash", bash_of), ("zsh", zsh_of), ("fish", fish_of)):
            found[f"tools/completions/{command.name}.{shell}"] = text(command)
    return found


def main():
    if sys.argv[1:] not in ([], ["--write"]):
        print(__doc__.strip())
        return 0 if sys.argv[1:] in (["--help"], ["-h"]) else 4
    stale = []
    for name, text in files().items():
        path = os.path.join(TOP, name)
        if os.path.isfile(path) and tvlib.read_text(path) == text:
            continue
        stale.append(name)
        if sys.argv[1:]:
            pathlib.Path(path).parent.mkdir(parents=True, exist_ok=True)
            pathlib.Path(path).write_text(text)
    for name in stale:
        print(f"{'written' if sys.argv[1:] else 'not up to date'}: {name}")
    return 1 if stale and not sys.argv[1:] else 0


if __name__ == "__main__":
    sys.dont_write_bytecode = True
    tvlib.start(main)
