# Lines of HEX, number, place or count, chip, rules -> the module proofs/Rows of a copy of crates/format: each row is computed on its
# chip and by its rules.
BEGIN {
    FS = "\t"
    print "-- The reader computes each row's answer; by `right_each` it is then the verdict's."
    print "-- Assumes nothing."
    print "use mathlib.Core.Path.{◌≡◌, refl}"
    print "use mathlib.Core.Bool.{true}"
    print "use mathlib.Core.List.{[], ◌∷◌}"
    print "use Rattle.format.specs.Rules.{description_rules, own_rules}"
    print "use Rattle.format.specs.ZonesAndStrings.{rules_against}"
    print "use Rattle.format.specs.Decode.{decode}"
    print "use Rattle.format.specs.Reader.{verdict_of, pass, step}"
    print "use Rattle.format.specs.Rows as rows"
    print "use Rattle.format.proofs.KnownTables.{right}"
    print "use Rattle.format.specs.declared.pins.Chip.{Chip}"
    print "use Rattle.format.specs.declared.pins.Chip.TheVariants.{C8051F320, C8051F321}"
    print "use Rattle.format.specs.declared.settings.Rules.{Rules}"
    print "use Rattle.format.specs.declared.settings.Rules.TheVariants.{Ordinary, Archive}"
    print "use Rattle.format.specs.declared.settings.Settings.{Settings}"
    print "\nabbrev on : Chip → Rules → Settings\non c k = record { chip = c; rules = k }"
}
{
    rules = $5 == "archive" ? "Archive" : "Ordinary"
    printf "\nrow_%d : right (on C8051F%s %s) (rows.r%d ∷ []) ≡ true\n", NR, $4 == "" ? "320" : $4, rules, NR
    print "unfolding verdict_of pass step decode description_rules own_rules rules_against"
    printf "row_%d = refl\n", NR
}
