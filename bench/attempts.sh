# shellcheck shell=sh disable=SC2034
# For the scripts that try what stands around the proved programs. They source this from the project's root.
root=.
. bench/tables.sh
. tools/loader.sh
. tools/explain.sh
tried=0

wrong() { # WORDS
    echo "bench/$(basename "$0"): wrong: $1"
    exit 1
}

# Runs a command: its status, $made/got.out and $made/got.said are what came of it.
attempt() { # COMMAND..
    status=0
    "$@" > $made/got.out 2> $made/got.said || status=$?
    tried=$((tried + 1))
}

# Holds the last attempt to its status, its standard output, and what it says on standard error: a file for each, or the word for it.
expect() { # WHAT STATUS OUT nothing|something|SAID
    [ "$status" -eq "$2" ] || wrong "$1: status $status, not $2"
    cmp $made/got.out "$3" || wrong "$1: standard output is not as it should be"
    case $4 in
    nothing) [ ! -s $made/got.said ] || wrong "$1: standard error has: $(cat $made/got.said)" ;;
    something) [ -s $made/got.said ] || wrong "$1: standard error says nothing" ;;
    *) diff "$4" $made/got.said || wrong "$1: standard error is not as it should be" ;;
    esac
}

said() { # WHAT PATTERN: standard error has a line like this
    grep -q "$2" $made/got.said || wrong "$1: no line on standard error is like '$2': $(cat $made/got.said)"
}

# The same command with a full disk, or nothing, behind its output or standard error.
full_disk() { "$@" > /dev/full; }
closed() { "$@" >&-; }
said_to_full_disk() { "$@" 2> /dev/full; }
said_to_closed() { "$@" 2>&-; }

awks() { # the awks that this machine has
    for awk in mawk gawk original-awk; do if command -v $awk > /dev/null; then echo $awk; fi; done
    if command -v busybox > /dev/null; then echo busybox awk; fi
}
