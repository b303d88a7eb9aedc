"""The completions for bash, zsh and fish: they have the commands and options of the help, and puzzles where a puzzle is due."""
import re
import subprocess

from documents import TOP
from needs import needs
from steps import SECONDS, call, compare

FILES = TOP / "completions"
COMMANDS = ("edit", "convert", "check")
BASH = """
source "$1/xw.bash"
COMP_WORDS=("${@:2}")
COMP_CWORD=$(($# - 2))
compopt() { :; }
_xw
((${#COMPREPLY[@]} == 0)) || printf '%s\\n' "${COMPREPLY[@]}"
"""
FISH = 'source "$argv[1]/xw.fish"; complete -C (string join " " -- $argv[2..])'
# Completes a line in a terminal of zsh. What is given to compadd, which adds words to the list, goes to a file.
ZSH = """
zmodload zsh/zpty
zpty completer zsh -f -i
zpty -w completer "source $2/setup.zsh $1 $2"
zpty -n -w completer "${*:3}"$'\\t'
while zpty -r completer line; do :; done
cat $2/told
"""
ZSH_SETUP = r"""
stty columns 500
PROMPT= fpath=($1 $fpath) TOLD=$2/told
: >$TOLD
autoload -Uz compinit
compinit -D -u
compadd() {
    local -a words told
    local name
    if [[ ${@[1,(i)(-|--)]} != *-(O|A|D)\ * ]]; then
        (( $@[(I)-d] )) && name=${@[$(( ${@[(i)-d]} + 1 ))]} && told=("${(@P)name}")
        builtin compadd -A words -D told "$@"
        print -rl -- $words $told >>$TOLD
    fi
    builtin compadd "$@"
}
complete-once() {
    zle list-choices
    exit
}
zle -N complete-once
bindkey '^I' complete-once
"""


def told(room, *words):
    ended = subprocess.run([str(word) for word in words], cwd=room, capture_output=True, timeout=SECONDS)
    compare(f"status of {words[0]}", (ended.returncode, ended.stderr), (0, b""))
    return ended.stdout.decode().splitlines()


def in_bash(room, *words):
    return {word: "" for word in told(room, "bash", "-c", BASH, "bash", FILES, "xw", *words)}


def in_fish(room, *words):
    needs("fish")
    return dict(line.partition("\t")[::2] for line in told(room, "fish", "-N", "-c", FISH, FILES, "xw", *words))


def in_zsh(room, *words):
    needs("zsh")
    (room / "hidden").mkdir(exist_ok=True)
    (room / "hidden/setup.zsh").write_text(ZSH_SETUP)
    # each word has a line of its own, and each word with its description another
    lines = told(room, "zsh", "-f", "-c", ZSH, "zsh", FILES, room / "hidden", "xw", *words)
    found = {line: "" for line in lines if line and " " not in line}
    found.update({word: line for word, line in (re.split(r"\s+-- ", line, maxsplit=1) for line in lines if " -- " in line) if word in found})
    return found


SHELLS = {"bash": in_bash, "zsh": in_zsh, "fish": in_fish}


def help_of(room, program, words):
    """The options and commands of a help text, with what it says of them."""
    text = call(room, program, f"{words} --help").stdout.decode()
    pairs = [(name, line) for names, line in re.findall(r"^ +((?:-\w, )?--\w+)(?: <FILE>)? +(.*)$", text, re.M) for name in names.split(", ")]
    return dict(pairs), dict(re.findall(r"^  (\w+) +(.*)$", text.partition("Commands:")[2].partition("Options:")[0], re.M))


def has_all(what, found, wanted):
    """The names are the wanted ones; fish shows long options alone, bash shows no description."""
    compare(f"names of {what}", set(found), set(wanted))
    compare(f"descriptions of {what}", {name: line for name, line in found.items() if line}, {name: wanted[name] for name in found if found[name]})


def options(shell):
    def step(room, program):
        for words in ("", *COMMANDS):
            wanted, _ = help_of(room, program, words)
            found = {name: line for prefix in ("-", "--") for name, line in SHELLS[shell](room, *words.split(), prefix).items()}
            has_all(f"options of xw {words}", {name: line for name, line in found.items() if name.startswith("-")}, wanted)

    return step


def commands(shell):
    def step(room, program):
        _, wanted = help_of(room, program, "")
        for words in ((), ("help",)):
            found = {name: line for name, line in SHELLS[shell](room, *words, "").items() if not name.startswith("-")}
            has_all(f"commands after xw {words}", found, wanted)

    return step


def files(shell):
    def step(room, program):
        folder = room / "files"
        (folder / "deep").mkdir(parents=True)
        for name in ("one.puz", "two.PUZ", "words.md"):
            (folder / name).touch()
        shown = lambda *words: {name.rstrip("/").rpartition("/")[2] for name in SHELLS[shell](room, *words)}
        for words in (("edit", "--from", "files/"), ("edit", "--to", "files/"), ("convert", "files/"), ("convert", "a.puz", "files/"), ("check", "files/")):
            found = shown(*words)
            assert "one.puz" in found and "deep" in found, f"{words}: {found}"
            # fish has all files, the puzzles first
            assert shell == "fish" or found == {"one.puz", "two.PUZ", "deep"}, f"{words}: {found}"
        for option in ("--dict", "--resume", "--save", "--journal"):
            found = shown("edit", option, "files/")
            # readline completes all files where the function for bash has no word
            assert found == set() if shell == "bash" else "words.md" in found, f"{option}: {found}"

    return step


CASES = {f"{step.__name__} in {shell}": [step(shell)] for shell in SHELLS for step in (options, commands, files)}
