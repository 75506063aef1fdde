# awk -v saved='N elements' -f ../refusals/elements.awk -f stop.awk - <LINES
# Where the program salvage stopped before the end of the file, or that the file is shorter than it says, in a sentence; else nothing. The lines are the
# program's, and FILE in the environment is the start of the file in hex, up to 4,097 bytes.

BEGIN {
    FS = "\t"
    T = ENVIRON["FILE"]
}

# The pass that stops comes before 13, 14 and 15: what these leave out was kept by it.
$3 == "left out" && $2 != 13 && $2 != 15 { passed_over[$1] = 1 }

END {
    size = length(T) / 2
    end = size < 4096 ? size : 4096
    for (p = 16; p < end && kept < 96 && is_whole(p); p += word(p + 1)) if (!(p in passed_over)) kept++
    if (p < end && kept < 96) print cut(p)
    else if (p < end) print full(p)
    else if (size > end) print beyond()
    else if (word(1) > size && word(1) <= 4096) print short()
}

function is_whole(p) { return end - p >= 3 && word(p + 1) >= 3 && p + word(p + 1) <= end }

function cut(p) {
    if (word(1) == p) return "from byte " p " on, where bytes 1-2 say that the table ends, nothing was saved; the new table has " saved
    return "from byte " p " on no element can be told apart (6), and nothing from there on was saved; the new table has " saved \
        "; if more stands there, mend the length of the element there or of the one before it, and try again"
}

function short() {
    return "bytes 1-2 say that the table has " word(1) " bytes, and the file ends at byte " size "; if it was cut off there, what stood behind " \
        "is not saved; the new table has " saved
}

function beyond() {
    return "only the first 4,096 bytes count, as no table has more, and nothing behind them was saved; the new table has " saved
}

function full(p) {
    return "96 elements were kept before byte " p ", and no table has more (11), so nothing from there on was saved; the new table has " \
        saved "; if something there is wanted, leave others out and try again"
}
