# Lines of HEX, number, place or count, chip, rules -> the module specs/Rows of a copy of crates/format: one row a line.
BEGIN {
    FS = "\t"
    print "-- Rows of the second program, for one run."
    print "-- Assumes nothing."
    print "use Rattle.std.specs.Prelude.{[], ◌∷◌}"
    print "use Rattle.format.specs.Known.{Row, ◌gives◌}"
    print "use Rattle.format.specs.Answers.{Gives as Accepted, Refused}"
}
{
    bytes = ""
    for (i = 1; i < length($1); i += 2) bytes = bytes "0x" tolower(substr($1, i, 2)) " ∷ "
    answer = $2 == 0 ? "Accepted " $3 : "Refused " $2 " " $3
    printf "\nabbrev pub r%d : Row\nr%d = %s[] gives %s\n", NR, NR, bytes, answer
}
