# Reads the words of a text, its bytes as od -An -v -tu1 writes them, so that any text can be read, whatever stands in it. Lines and columns count from 1,
# columns in bytes. For another script beside it, which calls end_word() at the END, and has two functions that are called at the end of each word:
#
#     keep_number()         the word is a number, value
#     keep_word()           it cannot be read: unread() is its look and its fault
#
# In both, word_line and word_column are where the word begins, place_of_word() says it, quoted() is the word itself. Of the text itself:
#
#     bytes                 how many there are; past is where the first beyond the longest text stands

BEGIN {
    LONGEST = 65536 # bytes of a text
    MOST_DIGITS = 9
    MOST_SHOWN = 20 # bytes of a word that cannot be read
    TAB = 9; LINE_FEED = 10; RETURN = 13; SPACE = 32; PLUS = 43; COMMA = 44; MINUS = 45; POINT = 46; ZERO = 48; DELETE = 127
    line = 1
    name_causes()
}

/^ *[0-9]/ { for (k = 1; k <= NF; k++) take($k + 0) }

function take(byte) {
    bytes++
    column++
    if (bytes <= 3) mark = mark " " byte
    if (bytes == LONGEST + 1) past = "line " line ", column " column
    if (byte == SPACE || byte == LINE_FEED) end_word()
    else add(byte)
    if (byte == LINE_FEED) { line++; column = 0 }
}

# One more byte of a word: a maximal run of bytes other than space and line feed.
function add(byte) {
    if (long == 0) {
        word_line = line; word_column = column
        digits = value = minus = zero = other = 0
        shown = sign = ""
        split("", has)
    }
    long++
    if (byte >= ZERO && byte <= ZERO + 9) {
        if (++digits == 1) zero = byte == ZERO
        if (digits <= MOST_DIGITS) value = 10 * value + byte - ZERO
    } else if (byte == MINUS && long == 1) minus = 1
    else {
        other++
        has[kind(byte)] = 1
    }
    if (long <= MOST_SHOWN) shown = shown look(byte)
}

# A number has an optional minus and 1 to 9 digits, no zero in front, and is not minus zero.
function end_word() {
    if (long == 0) return
    if (other || digits < 1 || digits > MOST_DIGITS || (zero && (digits > 1 || minus))) keep_word()
    else {
        if (minus) value = -value
        keep_number()
    }
    long = 0
}

# ---------------------------------------------------------------- a word that cannot be read

function unread() { return quoted() " cannot be read as a number: " why() "." }

function quoted() { return long > MOST_SHOWN ? "`" shown "..` (" long " bytes)" : "`" shown "`" }

function place_of_word() { return "line " word_line ", column " word_column }

# A byte as it is shown.
function look(byte) {
    if (byte == TAB) return "\\t"
    if (byte == RETURN) return "\\r"
    return byte > SPACE && byte < DELETE ? sprintf("%c", byte) : sprintf("\\x%02X", byte)
}

function kind(byte) {
    if (byte == TAB) return "tab"
    if (byte == RETURN) return "return"
    if (byte == POINT) return "point"
    if (byte == COMMA) return "comma"
    if (byte == PLUS) return "plus"
    if (byte == MINUS) return "minus"
    if (byte <= SPACE || byte >= DELETE) return "strange"
    if (look(byte) ~ /[A-Za-z]/) return "letter"
    if (sign == "") sign = look(byte)
    return "sign"
}

# Why the word cannot be read: the usual causes, all that it has.
function why(    text) {
    text = marked()
    if (text == "" && !other) text = misread()
    return text != "" ? text : "it has " causes("point comma tab plus minus letter sign strange return")
}

# What the first word of a file may begin with.
function marked() {
    if (word_line > 1 || word_column > 1) return ""
    if (mark == " 239 187 191") return "it begins with a byte order mark (EF BB BF): save the file without one"
    return mark ~ /^ (255 254|254 255)/ ? "the file is UTF-16, two bytes a letter: save it as plain text (ASCII)" : ""
}

function name_causes() {
    cause["point"] = "a decimal point (whole numbers only)"
    cause["comma"] = "a comma (spaces part numbers, and thousands are not parted)"
    cause["tab"] = "a tab (spaces part numbers)"
    cause["plus"] = "a plus sign"
    cause["minus"] = "a minus that is not in front"
    cause["letter"] = "letters (no names, no notes, no mark for a missing value)"
    cause["strange"] = "bytes that are no plain text (ASCII), shown as \\xNN"
    cause["return"] = "a carriage return (the file was saved with Windows or old Mac line ends)"
}

# Which of these kinds of bytes the word has.
function causes(kinds,    list, n, k, text) {
    n = split(kinds, list, " ")
    for (k = 1; k <= n; k++) if (list[k] in has) text = also(text, list[k] == "sign" ? "the sign `" sign "`" : cause[list[k]])
    return text
}

function misread() {
    if (digits == 0) return "a minus without digits"
    if (digits > MOST_DIGITS) return "it has " digits " digits, and nine are the most"
    return minus && digits == 1 ? "minus zero (write 0)" : "it has a zero in front"
}

function also(text, cause_of) { return text == "" ? cause_of : text ", " cause_of }
