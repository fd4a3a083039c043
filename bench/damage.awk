# Writes damaged copies of a text of the program `balance`, the same each time:
#
#     LC_ALL=C awk -v copies=COUNT -v folder=FOLDER -f bench/damage.awk TEXT
#
# FOLDER/1.txt and so on have a word dropped, doubled or changed, a line dropped, doubled or changed for another, the end cut off, or a byte
# changed.

BEGIN {
    seed = 1
    odds = split("-1 0 1 2 5 16 29 64 65 101 255 256 366 367 601 1001 1501 20001 400001 9999999 999999999 -9999 -1001 " \
        "0.5 1,5 007 -0 - +5 5x 1234567890", odd, " ")
}

{ line[NR] = $0 }

END {
    for (copy = 1; copy <= copies; copy++) {
        text = damaged(copy % 10, copy % 4 == 0)
        file = folder "/" copy ".txt"
        printf "%s", text > file
        close(file)
    }
}

# A whole number from 0 to n - 1.
function below(n) {
    seed = (seed * 3877 + 29573) % 139968
    return int(n * seed / 139968)
}

# The text with a damage of this kind, on its first line or on any.
function damaged(kind, on_first,    where, k, row, text) {
    where = on_first ? 1 : 1 + below(NR)
    for (k = 1; k <= NR; k++) {
        row = line[k]
        if (k == where && kind == 0) continue
        if (k == where && kind == 1) row = row "\n" row
        if (k == where && kind == 2) row = line[1 + below(NR)]
        if (k == where && kind >= 3 && kind <= 7) row = damaged_row(row, kind)
        text = text row "\n"
    }
    if (kind == 8) return substr(text, 1, below(length(text)))
    return kind == 9 ? damaged_byte(text, 1 + below(length(text))) : text
}

function damaged_row(row, kind,    word, words, n, k, text) {
    words = split(row, word, " ")
    n = 1 + below(words)
    if (kind == 3) word[n] = ""
    if (kind == 4) word[n] = word[n] " " word[n]
    if (kind >= 5) word[n] = odd[1 + below(odds)]
    for (k = 1; k <= words; k++) if (word[k] != "") text = text (text == "" ? "" : " ") word[k]
    return text
}

# No byte 0, which not every awk can write.
function damaged_byte(text, n) { return substr(text, 1, n - 1) sprintf("%c", 1 + below(255)) substr(text, n + 1) }
