# awk -f ../refusals/elements.awk -f words.awk texts.tsv - <LINES
# Under each line of the program salvage a sentence, two blanks before it. FILE in the environment is the damaged file in hex, for the kinds
# of elements; where it is empty, an element is called so. The words stand in texts.tsv.

BEGIN {
    FS = "\t"
    T = ENVIRON["FILE"]
}

NR == FNR {
    if ($0 !~ /^#/) why[$1] = $2
    next
}

{
    print
    print "  " sentence()
}

function sentence(    it) {
    it = $1 == 0 ? "the description" : "the " (T == "" ? "element" : kind($1)) " at byte " $1
    if ($3 == "cleared") return "the string index of " it " is set to 0: " why[$2]
    return it " is left out: " why[$2]
}
