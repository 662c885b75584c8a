# Sourced by the commands of this folder, each of which sets its name as `program`: what they need, what they are at, and what went
# wrong, in lines on standard error, whatever a command's own output goes to.
exec 3>&2

tell() { echo "$program: $*" >&3; }

# A line for each command that is missing; without one of them nothing is begun.
need() { # COMMAND...
    missing=''
    for command in "$@"; do
        command -v "$command" >/dev/null || { tell "$command is not on the PATH"; missing=1; }
    done
    [ -z "$missing" ] || exit 2
}

# Says each minute how far a log has come, as long as the command runs.
watch() { # LOG
    seconds=0
    while sleep 1 && kill -0 "$$" 2>/dev/null; do
        seconds=$((seconds + 1))
        [ $((seconds % 60)) -ne 0 ] || tell "still at it, $((seconds / 60)) min: $(tail -n 1 "$1" | cut -c 1-100)"
    done
}

# Runs a command into a log, with a watch beside it.
watched() { # LOG COMMAND...
    into=$1
    shift
    : >"$into"
    watch "$into" &
    watcher=$!
    status=0
    "$@" >"$into" 2>&1 </dev/null 3>&- || status=$?
    kill "$watcher" 2>/dev/null || true
    wait "$watcher" 2>/dev/null || true
    return "$status"
}

# Runs rt in a crate's folder.
rt_in() { # CRATE WORD...
    crate=$1
    shift
    (cd "crates/$crate" && rt "$@")
}

# The first thing that a check says is wrong, in one line: an error, or a fact of a function that has no proof file. That something
# cited was not admitted only follows from another. Where it says no such thing, its last line.
first_error() { # FILE
    first=$(awk '
        found && /^  / { text = text $0 }
        found { exit }
        /^note: [^ ]*: it is not proved that / { text = substr($0, 7); exit }
        /^[^ ]*: error/ && !/ was not admitted / { found = 1; text = $0 }
        END { print text }' "$1")
    echo "${first:-$(tail -n 1 "$1")}" | cut -c 1-500 | iconv -c -f UTF-8 -t UTF-8
}
