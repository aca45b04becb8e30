"""Completion scripts for bash, zsh and fish, made from the parser itself: its words, their options, choices and files."""

from __future__ import annotations

import argparse
import pathlib
import re
from collections.abc import Iterable
from shlex import quote
from typing import NamedTuple

# What the help calls a file, whatever reads it.
FILES = ("FILE", "OTHER", "OUT")


class Argument(NamedTuple):
    """An option, or without option strings what stands at a place: what is said of it, and what completes it."""

    options: tuple[str, ...]
    name: str
    about: str
    takes_value: bool
    is_file: bool
    choices: tuple[str, ...]
    repeats: bool


class Word(NamedTuple):
    """A word of the command. The one without a name is the command before any word."""

    name: str
    about: str
    options: list[Argument]
    places: list[Argument]


def script(shell: str, parser: argparse.ArgumentParser, program: str) -> str:
    """The completion script of a shell for a program that has this parser."""
    return SHELLS[shell](words_of(parser), program)


# The parser, read.


def words_of(parser: argparse.ArgumentParser) -> list[Word]:
    """The command before any word, then its words."""
    inside = next((action for action in parser._actions if isinstance(action, argparse._SubParsersAction)), None)
    words = [word_of("", "", parser)]
    if inside is not None:
        abouts = {choice.dest: described(choice, parser) for choice in inside._choices_actions}
        words += [word_of(name, abouts.get(name, ""), made) for name, made in inside.choices.items()]
    return words


def word_of(name: str, about: str, parser: argparse.ArgumentParser) -> Word:
    arguments = [argument_of(action, parser) for action in parser._actions if action.help != argparse.SUPPRESS]
    return Word(name, about, [one for one in arguments if one.options], [one for one in arguments if not one.options])


def argument_of(action: argparse.Action, parser: argparse.ArgumentParser) -> Argument:
    name = action.metavar if isinstance(action.metavar, str) else action.dest
    return Argument(
        tuple(action.option_strings), name, described(action, parser),
        takes_value=action.nargs != 0,
        is_file=action.type is pathlib.Path or action.metavar in FILES,
        choices=tuple(str(choice) for choice in action.choices or ()),
        repeats=action.nargs in ("*", "+") or isinstance(action, argparse._AppendAction),
    )


def described(action: argparse.Action, parser: argparse.ArgumentParser) -> str:
    """An action's help on one line, with what argparse puts into it."""
    return " ".join(((action.help or "") % {**vars(action), "prog": parser.prog}).split())


def strings_of(options: Iterable[Argument]) -> list[str]:
    return [string for option in options for string in option.options]


def taking_keys(word: Word) -> list[str]:
    """The options of a word behind which a value stands, each with the word and a colon before it."""
    return [f"{word.name}:{string}" for string in strings_of(option for option in word.options if option.takes_value)]


# Bash. What is asked has a key: the word, a colon, and the place, or the option whose value it is, or a bare hyphen for the options.

BASH = r"""# Completion of PROGRAM for bash: source it, or put it in share/bash-completion/completions under the name PROGRAM.
_PROGRAM() {
    local current=${COMP_WORDS[COMP_CWORD]} word='' option='' place=0 given i kind='' choices=''
    COMPREPLY=()
    for ((i = 1; i < COMP_CWORD; i++)); do
        given=${COMP_WORDS[i]}
        if [[ $given == '=' ]]; then
            continue
        elif [[ $option ]]; then
            option=''
        elif [[ $given == -?* ]]; then
            case $word:$given in
TAKING
            esac
        elif [[ $word ]]; then
            ((place += 1))
        else
            word=$given
        fi
    done
    [[ $current == '=' ]] && current=''
    if [[ $option ]]; then
        place=$option
    elif [[ $current == -* ]]; then
        place=-
    fi
    case $word:$place in
CASES
    esac
    if [[ $kind == file ]]; then
        compopt -o filenames -o default 2> /dev/null
        mapfile -t COMPREPLY < <(compgen -f -- "$current")
    else
        mapfile -t COMPREPLY < <(compgen -W "$choices" -- "$current")
    fi
}
complete -F _PROGRAM PROGRAM
"""


def bash(words: list[Word], program: str) -> str:
    taking = [f"                {' | '.join(map(quote, keys))}) option=$given ;;" for keys in map(taking_keys, words) if keys]
    cases = [line for word in words for line in bash_cases(word)]
    return filled(BASH, program, TAKING="\n".join(taking), CASES="\n".join(cases))


def bash_cases(word: Word) -> list[str]:
    """What completes its options, their values and its places. The last place may be there many times."""
    name = quote(f"{word.name}:")
    keyed = [(f"{name}-", f"choices={quote(' '.join(strings_of(word.options)))}")]
    keyed += [(" | ".join(name + quote(string) for string in one.options), bash_value(one)) for one in word.options if one.takes_value]
    keyed += [(name + ("[0-9]*" if one.repeats else str(number)), bash_value(one)) for number, one in enumerate(word.places)]
    return [f"        {key}) {value} ;;" for key, value in keyed]


def bash_value(argument: Argument) -> str:
    if argument.choices:
        return f"choices={quote(' '.join(argument.choices))}"
    return "kind=file" if argument.is_file else ":"


# Zsh. Each word has a call of _arguments.

ZSH = r"""#compdef PROGRAM
# Completion of PROGRAM for zsh: put it in a folder of $fpath under the name _PROGRAM, or source it after compinit.
_PROGRAM() {
    local curcontext=$curcontext context state line
    local -A opt_args
    local -a commands=(
WORDS
    )
    _arguments -C \
OPTIONS
        '1:word:->word' '*::argument:->argument'
    case $state in
        word) _describe -t commands word commands ;;
        argument)
            case $words[1] in
CASES
            esac
            ;;
    esac
}
if [[ $zsh_eval_context[-1] == loadautofunc ]]; then
    _PROGRAM "$@"
else
    compdef _PROGRAM PROGRAM
fi
"""


# What would end a name or a description, and what escapes it.
COLON, BRACKET, BACKSLASH = r"[:\\]", r"[][:\\]", r"\\"


def zsh(words: list[Word], program: str) -> str:
    first, rest = words[0], words[1:]
    options = [f"        {specification} \\" for option in first.options for specification in zsh_option(option)]
    cases = [line for word in rest for line in zsh_case(word)]
    told = [f"        {quote(f'{escaped(COLON, word.name)}:{escaped(BACKSLASH, word.about)}')}" for word in rest]
    return filled(ZSH, program, WORDS="\n".join(told), OPTIONS="\n".join(options) or "        \\", CASES="\n".join(cases))


def zsh_case(word: Word) -> list[str]:
    specifications = [one for option in word.options for one in zsh_option(option)]
    for number, argument in enumerate(word.places):
        place = "*" if argument.repeats else str(number + 1)
        specifications.append(quote(place + zsh_value(argument)))
    lines = [f"                    {one}" for one in specifications]
    return [f"                {quote(word.name)}) _arguments \\", " \\\n".join(lines), "                    ;;"]


def zsh_option(option: Argument) -> list[str]:
    """A specification for each of its strings. One that isn't repeated leaves out the others of its own."""
    others = "*" if option.repeats else f"({' '.join(option.options)})"
    about = f"[{escaped(BRACKET, option.about)}]" if option.about else ""
    value = zsh_value(option) if option.takes_value else ""
    joins = {string: "=" if value and string.startswith("--") else "" for string in option.options}
    return [quote(f"{others}{string}{joins[string]}{about}{value}") for string in option.options]


def zsh_value(argument: Argument) -> str:
    action = f"({' '.join(argument.choices)})" if argument.choices else "_files" if argument.is_file else " "
    return f":{escaped(COLON, argument.name)}:{action}"


def escaped(signs: str, text: str) -> str:
    """The text with a backslash before each of these signs."""
    return re.sub(signs, lambda found: "\\" + found.group(), text)


# Fish. Each line holds where the word is so and the place's number is equal to one, or is one or greater.

EQUAL, FROM = "-eq", "-ge"
FISH = r"""# Completion of PROGRAM for fish: source it, or put it in ~/.config/fish/completions as PROGRAM.fish.
function __PROGRAM_asked --description 'The word of the command line, and the place that is asked'
    set -l word ''
    set -l place 0
    set -l option ''
    for given in (commandline -opc)[2..-1]
        if test -n "$option"
            set option ''
        else if string match -q -- '-?*' $given
            switch "$word:$given"
TAKING
            end
        else if test -n "$word"
            set place (math $place + 1)
        else
            set word $given
        end
    end
    string join -- \n "$word" $place
end
function __PROGRAM_at --description 'Whether the word is this one, and the place passes a test'
    set -l asked (__PROGRAM_asked)
    test "$asked[1]" = "$argv[1]"; and test $asked[2] $argv[2..3]
end
complete -c PROGRAM -e
complete -c PROGRAM -f
LINES
"""


def fish(words: list[Word], program: str) -> str:
    keyed = [" ".join(map(fish_quoted, keys)) for keys in map(taking_keys, words) if keys]
    taking = [f"                case {keys}\n                    set option $given" for keys in keyed]
    rest = words[1:]
    lines = [f"{fish_at(program, '', EQUAL, 0)} -a {fish_quoted(word.name)} -d {fish_quoted(word.about)}" for word in rest]
    lines += [line for word in words for line in fish_options(word, program)]
    lines += [line for word in rest for line in fish_places(word, program)]
    return filled(FISH, program, TAKING="\n".join(taking), LINES="\n".join(lines))


def fish_options(word: Word, program: str) -> list[str]:
    at = fish_at(program, word.name, FROM, 0)
    return [f"{at} {fish_strings(one)}{fish_value(one)} -d {fish_quoted(one.about)}" for one in word.options]


def fish_places(word: Word, program: str) -> list[str]:
    asked = [(one, fish_at(program, word.name, FROM if one.repeats else EQUAL, number)) for number, one in enumerate(word.places)]
    return [f"{at}{fish_completed(one)}" for one, at in asked if one.choices or one.is_file]


def fish_at(program: str, word: str, test: str, place: int) -> str:
    """The beginning of a line, with where it holds."""
    condition = f"__{program}_at {fish_quoted(word)} {test} {place}"
    return f"complete -c {program} -n {fish_quoted(condition)}"


def fish_strings(option: Argument) -> str:
    return " ".join(f"-l {string[2:]}" if string.startswith("--") else f"-s {string[1:]}" for string in option.options)


def fish_value(option: Argument) -> str:
    return f" -r{fish_completed(option)}" if option.takes_value else ""


def fish_completed(argument: Argument) -> str:
    if argument.choices:
        return f" -f -a {fish_quoted(' '.join(argument.choices))}"
    return " -F" if argument.is_file else " -f"


def fish_quoted(text: str) -> str:
    return "'" + text.replace("\\", "\\\\").replace("'", "\\'") + "'"


def filled(frame: str, program: str, **parts: str) -> str:
    """A script's frame with its parts in place, each once, and the program's name wherever it stands."""
    text = frame.replace("PROGRAM", program)
    return re.sub("|".join(map(re.escape, parts)), lambda found: parts[found.group()], text)


SHELLS = {"bash": bash, "zsh": zsh, "fish": fish}
