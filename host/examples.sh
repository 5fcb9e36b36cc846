# The tables of examples in the definitions, laid beside what the reference works out. Sourced, by POSIX sh.

tables='crates/promise/specs/Examples.antt crates/efr/specs/Examples.antt'

# A list as the reference prints it: 1 ∷ 0 ∷ [] is 1 0.
in_numbers() { sed -e 's/ ∷ \[\]$//' -e 's/ ∷ / /g'; }

# What the rows say, in their order: the last list of each.
# (A path of the repository has no blank.)
said() { sed -n 's/^ *\(∷ \)\{0,1\}is .* (\([^()]*\))$/\2/p' $tables | in_numbers; }

# The received bits of a row, which have a name of their own.
received() { sed -n "s/^$1 = //p" $tables | in_numbers; } # NAME

# The rows as the reference prints them: six from the tenth on begin with the received bits.
examples_in_table() {
    said | sed -e "10s/^/$(received tied) /" -e "11s/^/$(received four_away) /" \
        -e "12s/^/$(received lossy_tied) /" -e "13s/^/$(received nothing_came) /" \
        -e "14s/^/$(received even_gone) /" -e "15s/^/$(received pairs_gone) /"
}

# The tables have all that the reference works out, and nothing else.
examples_as_worked_out() { # REFERENCE ROOM
    "$1" examples >"$2/worked-out" && examples_in_table >"$2/in-table" || return 1
    [ -s "$2/worked-out" ] && cmp "$2/in-table" "$2/worked-out"
}
