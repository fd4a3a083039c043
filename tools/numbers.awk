# Keeps the numbers of a text of the program `balance`, beside tools/words.awk, for another script beside both:
#
#     count                 how many numbers stand before the first word that cannot be read, or in all
#     given[i], at[i]       number i, from 0, and its place in words: line and column
#     lines                 how many lines have a number on them; the k-th, from 1, is line line_of[k] of the text, its first number is
#                           first_on[k] and it has has_numbers[k] of them
#     bad                   how many words cannot be read; bad_at and bad_why are the place of the first, and its look and fault

BEGIN { count = 0 }

# After the first bad word the others are counted only: which number of the text they would be is not known.
function keep_word() {
    if (++bad > 1) return
    bad_at = place_of_word()
    bad_why = unread()
}

function keep_number() {
    if (bad) return
    at[count] = place_of_word()
    given[count] = value
    if (lines == 0 || line_of[lines] != word_line) {
        line_of[++lines] = word_line
        first_on[lines] = count
    }
    has_numbers[lines]++
    count++
}
