"""Completions for bash and zsh, made from the help of the command."""
from __future__ import annotations

import shlex

from program_help import Help, Item, Program

BASH = """\
# Completion of binlogfeed for bash, made from its help.
_binlogfeed() {{
    local word=${{COMP_WORDS[COMP_CWORD]}} before=${{COMP_WORDS[COMP_CWORD - 1]}} command= words= valued= at
    for ((at = 1; at < COMP_CWORD; at++)); do
        [[ ${{COMP_WORDS[at]}} == -* ]] || {{ command=${{COMP_WORDS[at]}}; break; }}
    done
    case $command in
    "") words={top} ;;
    help) words={commands} ;;
{cases}    esac
    COMPREPLY=()
    if [[ " $valued " == *" $before "* ]]; then
        # A value of an option: nothing is known of it, and it is no file.
        compopt +o bashdefault +o default 2>/dev/null
    elif [[ -z $command || $command == help || $word == -* ]]; then
        COMPREPLY=($(compgen -W "$words" -- "$word"))
    fi
    # Where nothing was found the word is completed as a file.
}}
complete -o bashdefault -o default -F _binlogfeed binlogfeed
"""

ZSH = """\
#compdef binlogfeed
# Completion of binlogfeed for zsh, made from its help.
local curcontext=$curcontext state line
local -a commands=(
{commands})
_arguments -C {top} '1:command:->command' '*::word:->word'
case $state in
command) _describe command commands ;;
word)
    case $words[1] in
    help) _describe command commands ;;
{cases}    esac
    ;;
esac
"""


def names_of(options: list[Item]) -> str:
    """The options' names, with blanks between them."""
    return " ".join(name for option in options for name in option.names)


def valued(options: list[Item]) -> list[Item]:
    """Those that take a value of which nothing is known. The path of a file is completed."""
    return [option for option in options if option.value and not option.names_a_file]


def bash(program: Program) -> str:
    """The completion for bash."""
    cases = "".join(
        f"    {name})\n        words={shlex.quote(names_of(said.options))}\n"
        f"        valued={shlex.quote(names_of(valued(said.options)))}\n        ;;\n"
        for name, said in program.commands.items()
    )
    commands = " ".join(command.words for command in program.top.commands)
    top = shlex.quote(f"{commands} {names_of(program.top.options)}")
    return BASH.format(top=top, commands=shlex.quote(commands), cases=cases)


def zsh_options(said: Help) -> str:
    """The options, as `_arguments` takes them."""
    words: list[str] = []
    for option in said.options:
        about = option.about.replace("\\", "\\\\").replace("[", "\\[").replace("]", "\\]")
        others = f"({' '.join(option.names)})" if len(option.names) > 1 else ""
        for name in option.names:
            value = f"=[{about}]:{option.value}:{'_files' if option.names_a_file else ' '}" if option.value else f"[{about}]"
            words.append(shlex.quote(f"{others}{name}{value}"))
    return " \\\n        ".join(words)


def zsh(program: Program) -> str:
    """The completion for zsh."""
    commands = "".join(f"    {shlex.quote(f'{item.words}:{item.about}')}\n" for item in program.top.commands)
    cases = "".join(
        f"    {name})\n        _arguments {zsh_options(said)} \\\n        '*:file:_files'\n        ;;\n"
        for name, said in program.commands.items()
    )
    return ZSH.format(top=zsh_options(program.top), commands=commands, cases=cases)
