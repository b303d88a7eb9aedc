# Runs the parts of a check, each of which counts. tests/library and tests/page read this file, with the top folder in `top`, and the names of the parts
# that are asked for in `asked`; all are if it is empty.

room=$(mktemp -d)
trap 'rm -rf "$room"' EXIT
# what each part said
logs=$room/logs
mkdir "$logs"

is_asked() {
    local name
    for name in "${asked[@]-$1}"; do
        [ "$name" != "$1" ] || return 0
    done
    return 1
}

# Is done before each part that runs.
prepare() {
    :
}

# Runs a command that counts, and shows what it says under a name. If a tool that it needs is not installed, it is skipped.
#
#   run NAME 'TOOL ..' COMMAND ..
run() {
    local name=$1 tools=$2 log reason
    is_asked "$name" || return 0
    shift 2
    log=$logs/${name// /-}
    reason=$("$top/tests/needs.py" missing $tools)
    if [ -n "$reason" ]; then
        echo "skipped: $name: $reason"
        echo "0 passed, 0 failed, 1 skipped" >"$log"
    else
        prepare
        "$@" 2>&1 | tee "$log" | sed -u "s/^/$name: /" || true
    fi
}

# Prints the last line, and ends.
end() {
    "$top/tests/counts.py" "$logs"/*
    exit
}
