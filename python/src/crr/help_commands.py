"""The commands on the command itself: help, completion, man. All are made of what stands over each command's
function."""

from __future__ import annotations

import argparse
from typing import Dict, List, Optional

from .command import COMMANDS, PASSES, Answer, Argument, Command, Shown, argument
from .command import command as as_command

SHELLS = ("bash", "zsh")


def _name(text: str) -> str:
    if text not in COMMANDS:
        raise argparse.ArgumentTypeError(f"there is no command {text!r}; `crr help` lists them")
    return text


@as_command(
    "help",
    "what a command does and takes",
    argument(
        "about", nargs="?", type=_name, metavar="COMMAND", help="such as test; without it, all commands"
    ),
)
def help_command(about: Optional[str]) -> Answer:
    """The same as --help behind the command."""
    from .cli import parser  # which lists the commands of this module too

    try:
        parser().parse_args([about, "--help"] if about else ["--help"])
    except Shown as shown:
        return Answer(PASSES, str(shown), shown.data)
    raise AssertionError("help ends the parser")


def _shell(text: str) -> str:
    if text not in SHELLS:
        raise argparse.ArgumentTypeError(f"{text!r} is none of {', '.join(SHELLS)}")
    return text


@as_command(
    "completion",
    "a script that completes commands, options and their words: source <(crr completion bash)",
    argument("shell", type=_shell, metavar="SHELL", help="bash or zsh", words=SHELLS),
)
def completion(shell: str) -> Answer:
    """A shell's completion script."""
    from .cli import listed, parser

    text = (_bash if shell == "bash" else _zsh)(listed(), _before(parser()))
    return Answer(PASSES, text, {"script": text})


@as_command("man", "this page for man: crr man > crr.1, then man ./crr.1")
def man() -> Answer:
    """The manual page, as roff."""
    from .cli import listed, parser

    page = _page(listed(), parser())
    return Answer(PASSES, page, {"page": page})


def _before(parser: argparse.ArgumentParser) -> Dict[str, str]:
    """The options that stand before a command, and their help."""
    return {
        name: action.help or ""
        for action in parser._actions
        for name in action.option_strings
        if name[:2] == "--"
    }


def _options(command: Command) -> List[Argument]:
    return [each for each in command.arguments if each.names[0].startswith("-")]


def _positionals(command: Command) -> List[Argument]:
    return [each for each in command.arguments if not each.names[0].startswith("-")]


_BASH = """\
# Completion of crr for bash: source <(crr completion bash)
_crr() {
    local word=${COMP_WORDS[COMP_CWORD]} last=${COMP_WORDS[COMP_CWORD - 1]} command="" words="" taken="" i
    for ((i = 1; i < COMP_CWORD; i++)); do
        if [[ ${COMP_WORDS[i]} != -* ]]; then
            command=${COMP_WORDS[i]}
            break
        fi
    done
    COMPREPLY=()
    case "$command $last" in
@VALUES@
    esac
    case "$command" in
@WORDS@
    esac
    # Other words are files and folders, which bash completes by itself.
    [[ -z $command || $word == -* ]] || words=$taken
    mapfile -t COMPREPLY < <(compgen -W "$words" -- "$word")
}
complete -o default -F _crr crr
"""


def _bash(commands: List[Command], before: Dict[str, str]) -> str:
    names = " ".join(command.name for command in commands)
    values = []
    words = [f'        "") words="{names} {" ".join(before)}" ;;']
    for command in commands:
        for each in _options(command):
            if each.words:
                case = " | ".join(f'"{command.name} {name}"' for name in each.names)
                values.append(
                    f"        {case}) mapfile -t COMPREPLY < "
                    f'<(compgen -W "{" ".join(each.words)}" -- "$word")'
                    + "; return ;;"
                )
        options = " ".join(name for each in _options(command) for name in each.names if name.startswith("--"))
        taken = (
            names
            if command.name == "help"
            else " ".join(word for each in _positionals(command) for word in each.words)
        )
        also = f' taken="{taken}"' if taken else ""
        words.append(f'        {command.name}) words="{f"--json --help {options}".strip()}"{also} ;;')
    return _BASH.replace("@VALUES@", "\n".join(values)).replace("@WORDS@", "\n".join(words))


def _zsh_text(text: str) -> str:
    """A text within single quotes, in which brackets and colons have no other meaning."""
    for special in ("\\", "[", "]", ":"):
        text = text.replace(special, "\\" + special)
    return text.replace("'", "'\\''")


def _zsh_argument(each: Argument) -> str:
    """An argument as _arguments takes it."""
    settings = each.settings
    kind = (
        f"({' '.join(each.words)})"
        if each.words
        else "_files -/"
        if settings.get("metavar") == "FOLDER"
        else "_files"
    )
    text = _zsh_text(settings.get("help", ""))
    if not each.names[0].startswith("-"):
        many = {"?": ":", "+": "*"}.get(settings.get("nargs", ""), "")
        return f"'{many}:{_zsh_text(settings['metavar'])}:{kind}'"
    value = (
        ""
        if settings.get("action") == "store_true"
        else f":{_zsh_text(settings['metavar']).strip('{}')}:{kind}"
    )
    return " ".join(f"'{name}[{text}]{value}'" for name in each.names)


def _zsh(commands: List[Command], before: Dict[str, str]) -> str:
    first = " ".join(f"'{name}[{_zsh_text(text)}]'" for name, text in before.items())
    lines = [
        "#compdef crr",
        "# Completion of crr for zsh: source <(crr completion zsh)",
        "_crr() {",
        "    local line state",
        "    local -a commands",
    ]
    lines += (
        ["    commands=("]
        + [f"        '{command.name}:{_zsh_text(command.help)}'" for command in commands]
        + ["    )"]
    )
    lines += [f"    _arguments -C {first} '1:COMMAND:->command' '*::argument:->argument'"]
    lines += [
        "    case $state in",
        "        command) _describe -t commands 'crr command' commands ;;",
        "        argument)",
        "            case $line[1] in",
    ]
    for command in commands:
        taken = " ".join(_zsh_argument(each) for each in command.arguments)
        if command.name == "help":
            taken = "':COMMAND:(" + " ".join(each.name for each in commands) + ")'"
        lines.append(
            f"                {command.name}) _arguments '--json[the answer as JSON]' "
            f"'--help[what it does and takes]' {taken} ;;"
        )
    return "\n".join([*lines, "            esac", "            ;;", "    esac", "}", "compdef _crr crr", ""])


def _roff(text: str) -> str:
    """A text in which no character has a meaning for roff."""
    plain = text.replace("\\", "\\e").replace("-", "\\-")
    return f"\\&{plain}" if plain.startswith((".", "'")) else plain


def _of_command(command: Command) -> List[str]:
    """A command's part of the manual page."""
    taken = " ".join(_synopsis(each) for each in command.arguments)
    lines = [
        f".SS {_roff(command.name)}",
        f".B crr {_roff(command.name)}",
        _roff(f"{taken} [--json]".strip()),
        ".PP",
        _roff(f"{command.help}."),
    ]
    for each in command.arguments:
        names = (
            ", ".join(name for name in each.names)
            if each.names[0].startswith("-")
            else each.settings["metavar"]
        )
        value = (
            ""
            if each.settings.get("action") == "store_true" or not each.names[0].startswith("-")
            else f" {each.settings['metavar']}"
        )
        lines += [".TP", f".B {_roff(names + value)}", _roff(each.settings["help"]) + "."]
    return lines


def _synopsis(each: Argument) -> str:
    """An argument in a usage line."""
    metavar = each.settings.get("metavar", "")
    if not each.names[0].startswith("-"):
        many = {"?": f"[{metavar}]", "+": f"{metavar} .."}
        return many.get(each.settings.get("nargs", ""), str(metavar))
    text = each.names[0] if each.settings.get("action") == "store_true" else f"{each.names[0]} {metavar}"
    return text if each.settings.get("required") else f"[{text}]"


def _page(commands: List[Command], parser: argparse.ArgumentParser) -> str:
    lines = ['.TH CRR 1 "" "crr" "User commands"', ".ad l", ".nh", ".SH NAME"]
    lines += [f"crr \\- {_roff((parser.description or '').rstrip('.'))}"]
    lines += [".SH SYNOPSIS", ".B crr", _roff("[OPTION] COMMAND .."), ".SH OPTIONS"]
    for name, text in _before(parser).items():
        lines += [".TP", f".B {_roff(name)}", _roff(f"{text}.")]
    lines += [".SH COMMANDS"]
    for command in commands:
        lines += _of_command(command)
    lines += [".SH EXIT STATUS", _roff((parser.epilog or "").replace("Exit status: ", ""))]
    return "\n".join(lines) + "\n"
