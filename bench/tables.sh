# shellcheck shell=sh
# For the scripts that make a document's tables by the plain C. They source this from the project's root.
made=bench/build
mkdir -p $made
. bench/files.sh

# Compiles bench/NAME.c, and what else it needs, with the plain C's rules as build/NAME.
plain() { # NAME [NAME..]
    # shellcheck disable=SC2046,SC2086
    ${CC:-cc} $WARN -O2 $(printf 'bench/%s.c ' "$@" $PLAIN) -o "$made/$1"
}

# Puts build/NAME.md between each <!-- made: NAME --> of the document and the <!-- end --> after it, or holds what stands there to it. Each NAME
# that is asked for has to have its place there: a document without the mark would pass unread.
tables() { # DOCUMENT write|check NAME..
    document=$1 mode=$2
    shift 2
    awk -v made=$made -v asked="$*" -v document="$document" '
    /^<!-- end -->$/ { inside = "" }
    inside == "" { print }
    /^<!-- made: [a-z]* -->$/ { inside = $3; found[$3]; while ((getline line < (made "/" $3 ".md")) > 0) print line }
    function lacking(what) { print document " has no " what > "/dev/stderr"; bad = 1 }
    END {
        n = split(asked, name, " ")
        for (i = 1; i <= n; i++) if (!(name[i] in found)) lacking("place for the table " name[i])
        if (inside != "") lacking("end of the table " inside)
        exit bad
    }' "$document" > $made/document.md
    [ "$mode" != write ] || cp $made/document.md "$document"
    cmp $made/document.md "$document"
}
