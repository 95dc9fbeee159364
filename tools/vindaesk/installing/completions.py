"""Completions for bash, zsh and fish, made of what commands know of themselves."""
import re
from typing import Dict, List

from .commands import Argument, Command, Kind

BASH = """# Completion for bash of vindaesk and its tools.

# Offers what a word may be: a file, a folder, a text of which nothing is known, or one of these words.
_vindaesk_offer() {
    case $1 in
        file) compopt -o default ;;
        folder) compopt -o dirnames ;;
        text) ;;
        *) mapfile -t COMPREPLY < <(compgen -W "$1" -- "$2") ;;
    esac
}

# Sets the options of a tool, what the values of options may be, and what its words may be.
_vindaesk_tool() {
    case $1 in
%(tools)s
        *) return 1 ;;
    esac
}

_vindaesk() {
    local cur=${COMP_WORDS[COMP_CWORD]} tool=${COMP_WORDS[0]##*/} first=1 number=0 options='' k kind
    local -a given=() words=()
    local -A values=()
    COMPREPLY=()
    if [[ $tool == vindaesk-* ]]; then
        tool=${tool#vindaesk-}
    else
        while [[ $first -lt $COMP_CWORD && ${COMP_WORDS[first]} == -* ]]; do
            ((first++))
        done
        if [[ $first -eq $COMP_CWORD ]]; then
            _vindaesk_offer '%(names)s' "$cur"
            return
        fi
        tool=${COMP_WORDS[first]}
        ((first++))
    fi
    _vindaesk_tool "$tool" || return
    # bash takes --name=value as three words
    [[ $cur == = ]] && cur=''
    for ((k = first; k < COMP_CWORD; k++)); do
        [[ ${COMP_WORDS[k]} == = ]] || given+=("${COMP_WORDS[k]}")
    done
    for ((k = 0; k < ${#given[@]}; k++)); do
        kind=${values[x${given[k]}]-}
        if [[ -n $kind && $((k + 1)) -eq ${#given[@]} ]]; then
            _vindaesk_offer "$kind" "$cur"
            return
        elif [[ -n $kind ]]; then
            ((k++))
        elif [[ ${given[k]} != -?* ]]; then
            ((number++))
        fi
    done
    if [[ $cur == -* ]]; then
        _vindaesk_offer "$options" "$cur"
    elif [[ ${#words[@]} -gt 0 ]]; then
        _vindaesk_offer "${words[number < ${#words[@]} ? number : ${#words[@]} - 1]}" "$cur"
    fi
}

complete -F _vindaesk %(called)s
"""
BASH_TOOL = """# Completion for bash, which is in the file beside this one.
source "${BASH_SOURCE[0]%/*}/vindaesk"
"""
ZSH = """#compdef %(called)s
# Completion for zsh of vindaesk and its tools.

%(tools)s

_vindaesk() {
    local curcontext=$curcontext state line
    local -a commands
    if [[ $service == vindaesk-* ]]; then
        _vindaesk_${service#vindaesk-}
        return
    fi
    _arguments -C %(options)s '1:command:->command' '*::argument:->argument'
    case $state in
        command)
            commands=(
%(commands)s
            )
            _describe -t commands command commands
            ;;
        argument)
            (( $+functions[_vindaesk_$words[1]] )) && _vindaesk_$words[1]
            ;;
    esac
}

_vindaesk "$@"
"""
FISH = """# Completion for fish of vindaesk.

# The words after `vindaesk` and its own options, before the one that is typed.
function __vindaesk_given
    set -l given (commandline -poc)[2..-1]
    while set -q given[1]; and string match -q -- '-*' $given[1]
        set -e given[1]
    end
    set -q given[1]; and printf '%%s\\n' $given
end

# Whether no tool is given yet.
function __vindaesk_first
    test (count (__vindaesk_given)) -eq 0
end

# Whether this tool is given; with a number, whether its word of that number is typed, from 1; with a third argument,
# that word or a later one.
function __vindaesk_at
    set -l given (__vindaesk_given)
    test "$given[1]" = $argv[1]; or return 1
    set -q argv[2]; or return 0
    set -l number (math 1 + (count (string match -v -- '-*' $given[2..-1])))
    test $number -eq $argv[2]; or begin
        set -q argv[3]; and test $number -gt $argv[2]
    end
end

complete -c vindaesk -f
%(lines)s
"""
FISH_TOOL = """# Completion for fish of %(called)s.
complete -c %(called)s --wraps 'vindaesk %(name)s'
"""


def bash_kind(argument: Argument) -> str:
    """What an argument may be, for bash."""
    return "'%s'" % (" ".join(argument.choices) or argument.kind.value)


def bash_tool(command: Command) -> str:
    """The part of a tool."""
    options = [name for it in command.options() for name in it.names]
    values = ["[x%s]=%s" % (name, bash_kind(it)) for it in command.options() for name in it.names
              if it.kind is not Kind.NOTHING]
    words = [bash_kind(it) for it in command.words()]
    return "\n".join([
        "        %s)" % command.name,
        "            options='%s'" % " ".join(options),
        "            values=(%s)" % " ".join(values),
        "            words=(%s)" % " ".join(words),
        "            ;;",
    ])


def bash(front: Command, tools: List[Command]) -> str:
    """The completion for bash."""
    names = [it.name for it in front.parts] + [name for it in front.options() for name in it.names]
    return BASH % {
        "tools": "\n".join(map(bash_tool, front.parts)), "names": " ".join(names),
        "called": " ".join(it.called() for it in [front, *tools]),
    }


def quoted(text: str) -> str:
    """A text between single quotes, which zsh and fish read alike where it has none of its own and no backslash."""
    return "'%s'" % text.replace("\\", "").replace("'", "’")


def zsh_text(text: str) -> str:
    """A text in which no character has a meaning for _arguments."""
    return re.sub(r"([\[\]:])", r"\\\1", text.replace("\\", "").replace("'", "’"))


def zsh_kind(argument: Argument) -> str:
    """What an argument may be, for zsh, after its name."""
    act = {Kind.FILE: "_files", Kind.FOLDER: "_path_files -/", Kind.TEXT: " ", Kind.NOTHING: ""}[argument.kind]
    act = "(%s)" % " ".join(argument.choices) if argument.choices else act
    return "%s:%s" % (zsh_text(argument.value or "word"), act)


def zsh_option(argument: Argument) -> str:
    """An option, in the form of _arguments."""
    value = "" if argument.kind is Kind.NOTHING else ":" + zsh_kind(argument)
    text = "[%s]%s" % (zsh_text(argument.text), value)
    if len(argument.names) == 1:
        ending = "=" if value else ""
        return "'%s%s%s'" % (argument.names[0], ending, text)
    return "'(%s)'{%s}'%s'" % (" ".join(argument.names), ",".join(argument.names), text)


def zsh_tool(command: Command) -> str:
    """The function of a tool."""
    words = ["'%s:%s'" % ("*" if it.is_repeated else number, zsh_kind(it))
             for number, it in enumerate(command.words(), 1)]
    parts = [*map(zsh_option, command.options()), *words]
    return "_vindaesk_%s() {\n    _arguments -s -S%s\n}" % (command.name, "".join(" \\\n        " + it for it in parts))


def zsh(front: Command, tools: List[Command]) -> str:
    """The completion for zsh."""
    commands = ["                '%s:%s'" % (it.name, zsh_text(it.summary)) for it in front.parts]
    return ZSH % {
        "called": " ".join(it.called() for it in [front, *tools]), "tools": "\n\n".join(map(zsh_tool, front.parts)),
        "options": " ".join(map(zsh_option, front.options())), "commands": "\n".join(commands),
    }


def fish_kind(argument: Argument) -> str:
    """What an argument may be, for fish."""
    if argument.choices:
        return "-a %s" % quoted(" ".join(argument.choices))
    return {Kind.FILE: "-F", Kind.FOLDER: "-a '(__fish_complete_directories)'"}.get(argument.kind, "")


def fish_option(argument: Argument) -> str:
    """An option."""
    parts = [("-l " if name.startswith("--") else "-s ") + name.lstrip("-") for name in argument.names]
    if argument.kind is not Kind.NOTHING:
        parts += ["-r" if argument.kind is Kind.FILE else "-x", fish_kind(argument)]
    return " ".join([*filter(None, parts), "-d", quoted(argument.text)])


def fish_lines(command: Command) -> List[str]:
    """The lines of a part of `vindaesk`: its options, and its words where something is to be offered."""
    found = ["complete -c vindaesk -n '__vindaesk_at %s' %s" % (command.name, fish_option(it))
             for it in command.options()]
    for number, it in enumerate(command.words(), 1):
        place = "%d last" % number if number == len(command.words()) else "%d" % number
        if fish_kind(it):
            found.append("complete -c vindaesk -n '__vindaesk_at %s %s' %s" % (command.name, place, fish_kind(it)))
    return found


def fish(front: Command) -> str:
    """The completion for fish."""
    lines = ["complete -c vindaesk -n __vindaesk_first " + fish_option(it) for it in front.options()]
    for it in front.parts:
        lines.append("complete -c vindaesk -n __vindaesk_first -a %s -d %s" % (it.name, quoted(it.summary)))
        lines += fish_lines(it)
    return FISH % {"lines": "\n".join(lines)}


def all_shells(commands: List[Command]) -> Dict[str, str]:
    """The files of all shells by their paths below a prefix, for `vindaesk`, which is the first, and for the tools."""
    front, tools = commands[0], commands[1:]
    found = {
        "share/bash-completion/completions/vindaesk": bash(front, tools),
        "share/zsh/site-functions/_vindaesk": zsh(front, tools),
        "share/fish/vendor_completions.d/vindaesk.fish": fish(front),
    }
    for it in tools:
        found["share/bash-completion/completions/" + it.called()] = BASH_TOOL
        text = FISH_TOOL % {"called": it.called(), "name": it.name}
        found["share/fish/vendor_completions.d/%s.fish" % it.called()] = text
    return found
