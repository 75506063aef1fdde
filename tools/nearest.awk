# The word among those read, one a line, that is nearest to WORD of the environment: one letter put in, left out or exchanged, or two in a
# word of five letters or more. The first of several; nothing where there is none.

# How many letters must be put in, left out or exchanged.
function apart(a, b,    i, j, above, left, cost) {
    for (j = 0; j <= length(b); j++) row[j] = j
    for (i = 1; i <= length(a); i++) {
        above = row[0]
        row[0] = i
        for (j = 1; j <= length(b); j++) {
            left = row[j]
            cost = above + (substr(a, i, 1) != substr(b, j, 1))
            if (row[j - 1] + 1 < cost) cost = row[j - 1] + 1
            if (left + 1 < cost) cost = left + 1
            row[j] = cost
            above = left
        }
    }
    return row[length(b)]
}

BEGIN {
    word = ENVIRON["WORD"]
    least = length(word) < 5 ? 2 : 3
}
length(word) <= 20 {
    letters = apart(word, $1)
    if (letters < least) {
        least = letters
        nearest = $1
    }
}
END { if (nearest != "") print nearest }
