# Completions of xw for bash. ./build install puts this file where bash-completion looks for it.

# Completes a word as a puzzle, by the endings of their names, or as a folder. If there is none, readline completes any file.
_xw_puzzles() {
    compopt -o filenames
    mapfile -t COMPREPLY < <(compgen -d -- "$1" && compgen -f -- "$1" | grep -E '\.([Pp][Uu][Zz]|[Tt][Xx][Tt])$')
}

_xw() {
    local word=${COMP_WORDS[COMP_CWORD]} words=
    COMPREPLY=()
    case ${COMP_WORDS[1]},${COMP_WORDS[COMP_CWORD - 1]} in
        edit,--from | edit,--to) _xw_puzzles "$word" && return ;;
        # any file
        edit,--dict | edit,--resume | edit,--save | edit,--journal) return ;;
    esac
    case $COMP_CWORD,${COMP_WORDS[1]},$word in
        1,*) words='edit convert check help --help --version -h -V' ;;
        2,help,*) words='edit convert check help' ;;
        *,edit,*) words='--dict --from --resume --to --save --journal --sync --progress --explain --help -h' ;;
        *,convert,-* | *,check,-*) words='--explain --help -h' ;;
        *,convert,* | *,check,*) _xw_puzzles "$word" && return ;;
    esac
    mapfile -t COMPREPLY < <(compgen -W "$words" -- "$word")
}

complete -o default -F _xw xw
