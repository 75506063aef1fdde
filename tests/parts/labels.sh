# Part of tests/esa: ./esa label, and the words of its program.
# shellcheck shell=sh disable=SC2015,SC2154

# Table A, a fan with string 1, a fan without one, a zone with string 2; string 1 with a character of two units, string 2 empty.
named_table() {
    "$root/tools/bytes" 016600020007000080FFFFFF0000000003100001FFFFFF0105FF002C01DC054003100000FFFFFF0106FF002C01DC0540 &&
        "$root/tools/bytes" 0B1E00010200000000000000000000000000000000000000000000000000 &&
        "$root/tools/bytes" 0C1200010904C4006E0062003CD819DF2101 && "$root/tools/bytes" 0C0600020904
}

of_the_samples() {
    k=0
    for text in 'Front fan' 'Rear fan' 'Front air' 'Rear air' Status Front Rear 'Quiet box' 'Front fan' 'Rear fan'; do
        try "label of element $k" gives 0 "$text" label good $k 'no name'
        k=$((k + 1))
    done
    try "label of an element without a string" gives 0 'no name' label "$tables/water-kit.esa" 2 'no name'
    try "label without a name to lend" gives 0 '' label "$tables/water-kit.esa" 2
    try "label with an empty name" gives 0 '' label "$tables/water-kit.esa" 2 ''
    try "label on the 321" gives 0 'Front fan' label --chip 321 good 0
    try "label with zeros before its number" gives 0 'Quiet box' label -- good 0007 x
}

of_other_texts() {
    named_table >named
    try "a text with a character of two units" gives 0 'Änb🌙ġ' label named 0 x
    try "the same as a string's own" gives 0 'Änb🌙ġ' label named 3 x
    try "an empty text is not the lent name" gives 0 '' label named 2 'no name'
    try "an empty text of a string's own" gives 0 '' label named 4 'no name'
    for name in 'mit Umlauten ü' ' blanks  ' '-n' '%s\t' "two${newline}lines" "$(printf '\377')" "$(printf '%065000d' 0)"; do
        try "the lent name comes back as it is" gives 0 "$name" label -- named 1 "$name"
    done
    try "a lent name with a dash needs --" complains 2 "esa: there is no option '-none'; if it is a file, put ./ before it" label named 1 -none
}

refused_labels() {
    past="they are counted from 0, and the table has 5 elements"
    try "an element past the last" refuses label "R	17	0" "named: 17 at 0: there is no element 5: $past" named 5 x
    try "far past the last" refuses label "R	17	0" "named: 17 at 0: there is no element 123456789012345678901: $past" named 123456789012345678901
    try "a refused table" refuses label "R	13	16" "bad: $zone_missing" bad 0 x
    try "a refused table and no such element" refuses label "R	13	16" "bad: $zone_missing" bad 99 x
    try "a lamp that is not on the chip" refuses label "R	10	88" "lamp: $lamp_lacks" --chip 321 lamp 0 x
    retired=$(sed -n 's/^tables.old-box.esa: \(23 at .*\)/\1/p' "$tables/old-box.txt" | head -n 1)
    try "a table of the archive" refuses label "R	23	32" "old: $retired" old 0 x
    try "half a character" refuses label "R	9	162" "$(under './esa check tables/blank.esa' "$tables/blank.txt" | sed 's/^tables.blank.esa/half/')" half 0 x
    try "an empty file" refuses label "R	1	0" "empty: $empty" empty 0
}

misused_labels() {
    try "label of nothing" complains 2 "esa: label needs the name of a table and the number of an element" label
    try "label of one name" complains 2 "esa: label needs the name of a table and the number of an element" label good
    try "label of four words" complains 2 "esa: label takes a table, the number of an element and a name, and 4 words were given" label good 0 x y
    try "label of an empty name" complains 2 "esa: label needs the name of a table, and the name given is empty" label '' 0
    try "label of a file that is not there" complains 2 "esa: missing $no_file" label missing 0
    try "label of a folder" complains 2 "esa: box is a folder; label takes one table, so name a file in it" label box 0
    for k in '' x 1x +1 1.5 0x1 ' 1'; do
        try "label of element '$k'" complains 2 "esa: label needs the number of an element, counted from 0, and '$k' is none" label good "$k"
    done
    try "label --archive" complains 2 "esa: label takes no --archive (check and list do): it reads by the ordinary rules" label --archive good 0
    try "label --help" helps label --help
}

labels_program() {
    words="Behind the options stand the number of an element, of 1 to 9 digits, and a name of at most 65,536 bytes or none."
    for k in '' x 1x 1234567890 /0 :; do
        try "the program label '$k'" program_says "$words" label "$k" name
    done
    try "the program label without a word" program_says "$words" label
    try "the program label with options alone" program_says "$words" label --chip 321 --
    try "the program label with three words" program_says "$words" label 0 1 2
    try "the program label with a name of 65,537 bytes" program_says "$words" label 0 "$(printf '%065537d' 0)"
    try "the program label --archive" program_says "The option --archive is not taken here: this program has one set of rules." label --archive 0
}

labels() {
    cp "$tables/larger-chip.esa" lamp
    cp "$tables/old-box.esa" old
    cp "$tables/blank.esa" half
    of_the_samples
    of_other_texts
    refused_labels
    misused_labels
    labels_program
}
