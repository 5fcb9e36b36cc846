# docs/DRAWING.md beside the code and beside itself: its table of clocks, and the lines that it quotes. Sourced by POSIX sh.

# The rows of the table of clocks: clock, bit, what leaves, sum, and the cells in tens.
clocks_of() { sed -n '/^clock /,/^```/p' "$1" | grep '^ '; } # PAGE

# Each row follows from the one before it as far as a glance tells: the clocks are counted, what leaves stood in cell 39, and the sum is the sum.
sums_right() { # PAGE
    clocks_of "$1" | awk '
        $1 != NR || $3 != substr("0" last, length(last) + 1) || $4 != ($2 + $3) % 2 || NF != 8 { wrong = 1 }
        { last = $8 }
        END { exit wrong || NR < 15 }'
}

# The cells are those that the page's last command prints, which the kit worked out of the same bits.
cells_as_printed() { # PAGE ROOM
    clocks_of "$1" | awk '{ print $5, $6, $7, $8 }' >"$2/by-hand"
    bits=$(clocks_of "$1" | awk '{ printf "%s", $2 }')
    last=$(cat "$2/commands")
    grep -q "echo $bits " "$2/parts/$last.typed" && cmp "$2/by-hand" "$2/parts/$last.got"
}

# Every line of code that the page quotes in its table stands in the code, once.
lines_in_code() { # PAGE CODE
    sed -n 's/^| .* | `\(.*\)` |$/\1/p' "$1" >"$room/quoted"
    [ "$(wc -l <"$room/quoted")" -ge 8 ] || return 1
    while IFS= read -r line; do
        [ "$(sed 's/^ *//' "$2" | grep -cxF "$line")" -eq 1 ] || { say "not a line of $2: $line" && return 1; }
    done <"$room/quoted"
}

# After the page's commands were run.
drawing_as_run() { # PAGE ROOM
    sums_right "$1" && cells_as_printed "$1" "$2"
}
