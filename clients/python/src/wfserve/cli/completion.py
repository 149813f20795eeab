"""The command `completion`: what a shell needs to complete the words of `wf`."""

from __future__ import annotations

import argparse
from typing import Dict, List

from .statuses import Status

BASH = """_wf() {
    local word="${COMP_WORDS[COMP_CWORD]}" words="%(commands)s"
    if [ "$COMP_CWORD" -gt 1 ]; then
        case "${COMP_WORDS[1]}" in
%(cases)s
            *) words="" ;;
        esac
    fi
    COMPREPLY=($(compgen -W "$words" -- "$word"))
    [ ${#COMPREPLY[@]} -gt 0 ] || [ "${word#-}" != "$word" ] || COMPREPLY=($(compgen -f -- "$word"))
}
complete -F _wf wf
"""
ZSH = "autoload -U +X bashcompinit && bashcompinit\n"
FISH_COMMAND = "complete -c wf -n __fish_use_subcommand -f -a %s -d '%s'\n"
FISH_OPTION = "complete -c wf -n '__fish_seen_subcommand_from %s' -l %s\n"
SHELLS = ("bash", "zsh", "fish")


def add_completion(parser: argparse.ArgumentParser) -> None:
    parser.add_argument("shell", choices=SHELLS, help="as in: source <(wf completion bash)")


def options_of(parser: argparse.ArgumentParser) -> List[str]:
    """The long options of a command."""
    return [option for action in parser._actions for option in action.option_strings if option.startswith("--")]


def script(shell: str, parsers: Dict[str, argparse.ArgumentParser], helps: Dict[str, str]) -> str:
    """The script that a shell reads."""
    if shell == "fish":
        lines = [FISH_COMMAND % (name, helps[name].replace("'", "\\'")) for name in parsers]
        for name, parser in parsers.items():
            lines += [FISH_OPTION % (name, option[2:]) for option in options_of(parser)]
        return "".join(lines)
    cases = "\n".join(f'            {name}) words="{" ".join(options_of(it))}" ;;' for name, it in parsers.items())
    text = BASH % {"commands": " ".join(parsers), "cases": cases}
    return ZSH + text if shell == "zsh" else text


def completion(args: argparse.Namespace) -> Status:
    """Prints the script. The commands themselves are known to who made the parser."""
    print(script(args.shell, args.parsers, args.helps), end="")
    return Status.DONE
