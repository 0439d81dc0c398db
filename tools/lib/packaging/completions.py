"""Completion in bash and zsh, made from the table of the program's options and from the help page."""

from lib import program
from lib.call import FOLLOWED, OBSERVED_RUNS, SWEPT, TORN, WISHES
from lib.packaging import pages

# The first words that the script has beside the commands.
FIRST = ("build", "observe", "sweep", "--quiet", "--version", "--help")

# The commands that `observe OUT` takes.
OBSERVED = (*OBSERVED_RUNS, "plain")

# The options of `sweep OUT`, and which of these and of those of `observe OUT` a value follows.
SWEPT_BY = {**SWEPT, TORN: WISHES[TORN]}
VALUED = (*FOLLOWED, *SWEPT)

# The operands that are no files.
NUMBERS = ("N",)

# A range of at most so many numbers is listed.
FEW = 16


def values_of(name):
    """The values of an option, if they are few; else none."""
    if name == "scheme":
        return tuple(program.SCHEMES)
    field = program.FIELDS.get(name)
    if field is None or name in program.LISTS or field.high - field.low >= FEW:
        return ()
    return tuple(str(value) for value in range(field.low, field.high + 1, field.step))


def dashed(names):
    return " ".join(f"--{name}" for name in names)


BASH = r"""# Completion of thynvm for bash. tools/package has made it from the table of options.

# The words before the current one, with `--name=value` as one word.
_thynvm_words() {
    local k word
    words=()
    for ((k = 1; k < COMP_CWORD; k++)); do
        word=${COMP_WORDS[k]}
        if [[ $word == = && ${#words[@]} -gt 0 ]]; then
            words[-1]+==
        elif [[ ${#words[@]} -gt 0 && ${words[-1]} == --*= ]]; then
            words[-1]+=$word
        else
            words+=("$word")
        fi
    done
}

_thynvm_files() {
    compopt -o filenames 2>/dev/null
    mapfile -t COMPREPLY < <(compgen -f -- "$current")
}

_thynvm_choose() {
    mapfile -t COMPREPLY < <(compgen -W "$1" -- "$current")
}

_thynvm_value() {
    case $1 in
@VALUES@    @NAMES@) _thynvm_files ;;
    esac
}

_thynvm() {
    local words current=${COMP_WORDS[COMP_CWORD]} at=0 before='@FIRST@ @COMMANDS@' command options operands word option='' wishes=''
    COMPREPLY=()
    _thynvm_words
    if [[ $current == = ]]; then
        current=
        [[ ${#words[@]} = 0 ]] || words[-1]+==
    fi
    if [[ ${words[0]} == --quiet ]]; then
        at=1 before='observe @COMMANDS@'
    fi
    if [[ ${words[at]} == observe ]]; then
        wishes=' @WISHES@ ' before='@WISHES@ @OBSERVED@'
    elif [[ ${words[at]} == sweep && $at = 0 ]]; then
        wishes=' @SWEPT@ ' before='@SWEPT@ @RUNS@'
    fi
    if [[ -n $wishes ]]; then
        [[ ${#words[@]} != $((at + 1)) ]] || { _thynvm_files; return; }
        at=$((at + 2))
        while [[ ${#words[@]} -gt $at && $wishes == *" ${words[at]} "* ]]; do
            wishes=${wishes/ ${words[at]} / } before="${wishes/ ${words[at]} / }@RUNS@"
            [[ ${words[at]} != @VALUED@ ]] || at=$((at + 1))
            at=$((at + 1))
        done
        [[ ${#words[@]} -ge $at ]] || return
    fi
    [[ ${#words[@]} -gt $at ]] || { _thynvm_choose "$before"; return; }
    command=${words[at]}
    case $command in
@OPTIONS@    *) return ;;
    esac
    # What has its place already: options, and operands from the left.
    for word in "${words[@]:at+1}"; do
        if [[ -n $option ]]; then
            option=
        elif [[ $word == --*=* ]]; then
            options=${options/ ${word%%=*} / }
            [[ $word != *= ]] || option=${word%=}
        elif [[ $word == --* ]]; then
            options=${options/ $word / }
            [[ $word == @FLAGS@ ]] || option=$word
        else
            operands=${operands#* }
        fi
    done
    if [[ -n $option ]]; then
        _thynvm_value "$option"
    elif [[ $current == -* ]]; then
        _thynvm_choose "$options"
    else
        case ${operands%% *} in
        '' | @NUMBERS@) ;;
        *) _thynvm_files ;;
        esac
        [[ -n $current ]] || mapfile -t -O ${#COMPREPLY[@]} COMPREPLY < <(compgen -W "$options")
    fi
}

complete -F _thynvm thynvm
"""


def bash():
    """The completion for bash."""
    values = {name: " ".join(values_of(name)) for name in program.FIELDS if values_of(name)}
    options = "".join(
        f"    {command}) options=' {dashed(program.options_of(command))} ' operands='{' '.join(names)} ' ;;\n"
        for command, names in program.OPERANDS.items()
    )
    parts = {
        "VALUES": "".join(f"    --{name}) _thynvm_choose '{words}' ;;\n" for name, words in values.items()),
        "NAMES": " | ".join(f"--{name}" for name in program.NAMES),
        "FLAGS": f"@({'|'.join(f'--{name}' for name in program.FLAGS)})",
        "FIRST": " ".join(FIRST),
        "COMMANDS": " ".join(program.OPERANDS),
        "OBSERVED": " ".join(OBSERVED),
        "WISHES": " ".join(WISHES),
        "SWEPT": " ".join(SWEPT_BY),
        "VALUED": f"@({'|'.join(VALUED)})",
        "RUNS": " ".join(OBSERVED_RUNS),
        "NUMBERS": " | ".join(NUMBERS),
        "OPTIONS": options,
    }
    return filled_in(BASH, parts)


ZSH = r"""#compdef thynvm
# Completion of thynvm for zsh. tools/package has made it from the table of options.

_thynvm() {
    local at=2
    local word
    local -a first commands observed runs wishes swept
    first=(
@FIRST@    )
    commands=(
@COMMANDS@    )
    observed=(
@OBSERVED@    )
    runs=(
@RUNS@    )
    wishes=(
@WISHES@    )
    swept=(
@SWEPT@    )
    if ((CURRENT > 2)) && [[ $words[2] == --quiet ]]; then
        at=3 first=("${(@M)first:#observe:*}")
    fi
    if ((CURRENT > 2)) && [[ $words[2] == sweep ]]; then
        wishes=("${(@)swept}") observed=("${(@)runs}")
    fi
    if ((CURRENT > at)) && [[ $words[at] == observe || $words[2] == sweep ]]; then
        ((CURRENT == at + 1)) && { _files; return }
        at=$((at + 2)) first=("${(@)wishes}") commands=("${(@)observed}") word=$words[at]
        while ((CURRENT > at)) && [[ -n ${(M)first:#$word:*} ]]; do
            first=("${(@)first:#$word:*}") commands=("${(@)runs}")
            [[ $word == @VALUED@ ]] && at=$((at + 1))
            at=$((at + 1)) word=$words[at]
        done
        ((CURRENT >= at)) || return
    fi
    if ((CURRENT == at)); then
        first+=("${(@)commands}")
        _describe -V command first
        return
    fi
    local command=$words[at]
    words=("${(@)words[at,-1]}")
    ((CURRENT -= at - 1))
    case $command in
@OPTIONS@    esac
}

_thynvm "$@"
"""


def quoted(text):
    """A text as a word of zsh."""
    return "'" + text.replace("'", "'\\''") + "'"


def described(words, said):
    """Words with what they do, as `_describe` wants them."""
    texts = {"--help": "prints the help page", **{word: pages.shortly(text) for word, text in said.items()}}
    return "".join(f"        {quoted(f'{word}:{texts[word]}')}\n" for word in words)


def argument_of(name, meaning):
    """What an option is, for `_arguments`."""
    text = pages.shortly(meaning).replace("[", "\\[").replace("]", "\\]")
    if name in program.FLAGS:
        return quoted(f"--{name}[{text}]")
    if name in program.NAMES:
        return quoted(f"--{name}=[{text}]:file:_files")
    values = values_of(name)
    return quoted(f"--{name}=[{text}]:{name}:{'(' + ' '.join(values) + ')' if values else ' '}")


def zsh(page):
    """The completion for zsh, with what the help page says."""
    said, table, options = pages.commands_in(page), pages.options_in(page), ""
    for command, names in program.OPERANDS.items():
        words = [argument_of(name, table[name][2]) for name in program.options_of(command)]
        words += [quoted(f":{name}:{' ' if name in NUMBERS else '_files'}") for name in names]
        options += f"    {command})\n        _arguments \\\n            " + " \\\n            ".join(words) + "\n        ;;\n"
    parts = {
        "FIRST": described(FIRST, said),
        "COMMANDS": described(program.OPERANDS, said),
        "OBSERVED": described(OBSERVED, said),
        "RUNS": described(OBSERVED_RUNS, said),
        "WISHES": described(WISHES, {**said, **WISHES}),
        "SWEPT": described(SWEPT_BY, {**said, **SWEPT_BY}),
        "VALUED": f"({'|'.join(VALUED)})",
        "OPTIONS": options,
    }
    return filled_in(ZSH, parts)


def filled_in(text, parts):
    """A text with its parts in the places that have their names."""
    for name, part in parts.items():
        text = text.replace(f"@{name}@", part)
    return text
