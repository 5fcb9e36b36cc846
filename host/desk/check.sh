# The desk program beside the independent reference, on text files from Windows, on hostile input and where nobody takes its
# answers; whose a burst was that it refuses; the C hosts that pass identities of several types, give every reason and measure the
# stack; the program that README.md prints. Sourced by POSIX sh after host/setup.sh, where good and bad tell of what passed and what
# failed.

carriage_return=$(printf '\r')

# The desk program's answers in the kit's words, which are the reference's.
in_kit_words() {
    sed -E -e 's/^good, ([0-9]+) in disagreement: ([01]+)$/\1 \2/' \
        -e 's/^identity ([0-9]+), ([0-9]+) in disagreement$/\1 \2/' \
        -e 's/^(refused 1): a buffer has the wrong length, ((access|control)[?]?|whose) reads [0-9]+ bits$/\1/' \
        -e 's/^(refused 2): a bit is neither 0 nor 1, nor 2 for missing on reception$/\1/' \
        -e 's/^(refused 3): the identity is over 63$/\1/' \
        -e 's/^(refused 8): the parity is bad, ([0-9]+) in disagreement(, the nearest burst is for identity [0-9]+)?$/\1 \2/' \
        -e 's/^[?] write one of: .*/?/'
}

# Of kit lines, those of the desk's verbs that both read alike: the kit reads up to 1,000 bytes of line and five digits of number,
# the desk reads on. Carriage returns at the end of a line have checks of their own.
read_alike() { # REFERENCE ROOM
    LC_ALL=C grep -aE '^(access|control|whose)[?]?( |$)' | LC_ALL=C grep -av "$carriage_return\$" >"$2/ours"
    "$1" answer <"$2/ours" >"$2/want"
    paste -d '|' "$2/want" "$2/ours" | LC_ALL=C grep -avE '^[?][|](access[?]? [0-9]{5,} |.{1001})' | cut -d '|' -f 2-
}

# The desk answers the lines of one file as the reference answers those of another.
answers_alike() { # DESK REFERENCE ROOM DESK-LINES REFERENCE-LINES
    "$2" answer <"$5" >"$3/want"
    run_host "$1" <"$4" >"$3/said" || return 1
    in_kit_words <"$3/said" >"$3/got"
    [ -s "$3/want" ] && cmp "$3/got" "$3/want"
}

# Lines as they are, or as a text file from Windows has them: a byte order mark before the first, and a carriage return before each newline.
as_text() { # plain|Windows
    case $1 in
    plain) cat ;;
    Windows) printf '\357\273\277' && LC_ALL=C sed "s/\$/$carriage_return/" ;;
    esac
}

# Made lines; of the six channels two are the desk's, and so are most lines of make-whose, so that a quarter of the lines at least must be left.
compare_desk() { # DESK REFERENCE ROOM MAKER SEED COUNT plain|Windows
    "$2" "$4" "$5" "$6" | read_alike "$2" "$3" >"$3/lines"
    as_text "$7" <"$3/lines" >"$3/text"
    left=$(wc -l <"$3/lines")
    if [ "$left" -gt $(($6 / 4)) ] && answers_alike "$1" "$2" "$3" "$3/text" "$3/lines"; then
        good "desk and the reference on $left lines of $4, seed $5, as a $7 text"
    else
        bad "desk and the reference differ on $left lines of $4, seed $5, as a $7 text"
    fi
}

# Lines that mostly the desk alone reads, each with one of the same meaning that the kit reads too. In their lowest bits some of the
# identities are 0, 7 or 63.
twin_lines() {
    for identity in 255 256 263 65536 65599 99999 4294967296 4294967303 4294967359 18446744073709551615 18446744073709551616 \
        18446744073709551623 18446744073709551679 "1$(zeros 5000)"; do
        for bits in 00000000 0000000x 00000002 000000000 2 ''; do say "access $identity $bits|access 64 $bits"; done
        for bits in "$(zeros 36)" "$(zeros 35)2" "$(zeros 35)3" "$(zeros 37)"; do say "access? $identity $bits|access? 64 $bits"; done
    done
    for identity in 0 7 63 64 255; do
        say "access $(zeros 5000)$identity 00000000|access $identity 00000000"
        say "access? $(zeros 5000)$identity $(zeros 36)|access? $identity $(zeros 36)"
    done
    # Lengths round what the desk keeps of a field, and those that a byte or two would cut to the right ones.
    for length in 1023 1024 1025 1032 1060 1208 1480 65544 65572 65720 65992; do
        for words in control 'control?' 'access 63' 'access? 63' 'access 64' whose; do say "$words $(zeros $length)|$words 0"; done
    done
}

# What the kit does not read.
compare_twins() { # DESK REFERENCE ROOM
    twin_lines >"$3/twins"
    cut -d '|' -f 1 <"$3/twins" >"$3/desk-lines"
    cut -d '|' -f 2 <"$3/twins" >"$3/kit-lines"
    if answers_alike "$1" "$2" "$3" "$3/desk-lines" "$3/kit-lines" && ! grep -q '^?' "$3/want"; then
        good "desk on long lines and large numbers"
    else
        bad "desk on long lines and large numbers"
    fi
}

# Carriage returns, and byte order marks whole and in part, in many places: INPUT => ANSWERS as printf %b writes them, the answers
# in the kit's words.
returns_and_marks() {
    mark='\0357\0273\0277' request='access 63 00000000' sent=$(zeros 36)
    say "$request\r\n => $sent\n"
    say "$request\r\r\n => refused 1\n"
    say "access 63 0000000\r\r\n => refused 2\n"
    say "access 63 0000\r000\n$request\n => refused 2\n$sent\n"
    say "access 63\r 00000000\r\n$request\n => ?\n$sent\n"
    say "$request\n\r => $sent\n?\n"
    say "$request\r => refused 1\n"
    say "access 63 0000000\r => refused 2\n"
    say "\r\n\n\r\n => ?\n?\n?\n"
    say "$mark$request => $sent\n"
    say "$mark$request\r\n$request => $sent\n$sent\n"
    say "$request\n$mark$request\n$request\n => $sent\n?\n$sent\n"
    say "$mark$mark$request\n$request\n => ?\n$sent\n"
    say "\0357\0273$request\n$request\n => ?\n$sent\n"
    say "\0357$mark$request\n => ?\n"
    say "\0357\0273 => ?\n"
    say "\0357\n$request\n => ?\n$sent\n"
    say "$mark => "
    say "$mark\n => ?\n"
    say "$mark\r\n => ?\n"
    say "$mark\r => ?\n"
    say "$mark\n$mark => ?\n?\n"
}

# The desk answers each of these inputs as it stands there; the one that it does not is shown.
answers_as_typed() { # DESK ROOM
    while IFS= read -r typed; do
        printf '%b' "${typed#* => }" >"$2/want"
        printf '%b' "${typed%% => *}" | run_host "$1" >"$2/said"
        in_kit_words <"$2/said" | cmp - "$2/want" || { say "$typed"; return 1; }
    done
}

check_returns_and_marks() { # DESK ROOM
    returns_and_marks >"$2/typed"
    if [ -s "$2/typed" ] && answers_as_typed "$1" "$2" <"$2/typed"; then
        good "desk on $(wc -l <"$2/typed") inputs with carriage returns and byte order marks"
    else
        bad "desk on carriage returns and byte order marks"
    fi
}

# Beside every refusal 8 of access?, and nowhere else, the desk says whose the burst was: as the reference names it for the same bits. Such
# refusals must be among the lines.
says_whose() { # DESK REFERENCE ROOM
    "$2" answer <"$3/lines" >"$3/answers"
    paste -d '|' "$3/answers" "$3/lines" | LC_ALL=C sed -nE 's/^refused 8 [0-9]+[|]access[?] [0-9]+ /whose /p' >"$3/questions"
    "$2" answer <"$3/questions" >"$3/names"
    sed -E 's/^([0-9]+) ([0-9]+)$/refused 8: the parity is bad, \2 in disagreement, the nearest burst is for identity \1/' "$3/names" >"$3/want"
    run_host "$1" <"$3/lines" >"$3/said" || return 1
    LC_ALL=C grep -a 'nearest burst' "$3/said" >"$3/got"
    [ -s "$3/want" ] && cmp "$3/got" "$3/want"
}

check_whose() { # DESK REFERENCE ROOM MAKER SEED COUNT
    "$2" "$4" "$5" "$6" | read_alike "$2" "$3" >"$3/lines"
    if says_whose "$1" "$2" "$3"; then
        good "desk says whose the burst was beside $(wc -l <"$3/want") refusals on lines of $4, seed $5"
    else
        bad "desk does not say as the reference whose a refused burst was, on lines of $4, seed $5"
    fi
}

# What the desk says of each refusal of each verb: LINE => ANSWER.
refused_lines() {
    say "access 64 0000000 => refused 1: a buffer has the wrong length, access reads 8 bits"
    say "access? 64 $(zeros 35) => refused 1: a buffer has the wrong length, access? reads 36 bits"
    say "control $(zeros 185) => refused 1: a buffer has the wrong length, control reads 184 bits"
    say "control? 2 => refused 1: a buffer has the wrong length, control? reads 456 bits"
    say "whose $(zeros 34)3 => refused 1: a buffer has the wrong length, whose reads 36 bits"
    say "access 64 0000000x => refused 2: a bit is neither 0 nor 1, nor 2 for missing on reception"
    say "access 7 00000002 => refused 2: a bit is neither 0 nor 1, nor 2 for missing on reception"
    say "access? 64 $(zeros 35)3 => refused 2: a bit is neither 0 nor 1, nor 2 for missing on reception"
    say "control $(zeros 183)2 => refused 2: a bit is neither 0 nor 1, nor 2 for missing on reception"
    say "control? $(zeros 455)3 => refused 2: a bit is neither 0 nor 1, nor 2 for missing on reception"
    say "control? $(zeros 455)x => refused 2: a bit is neither 0 nor 1, nor 2 for missing on reception"
    say "whose $(zeros 35)3 => refused 2: a bit is neither 0 nor 1, nor 2 for missing on reception"
    say "access 64 00000000 => refused 3: the identity is over 63"
    say "access? 64 $(zeros 36) => refused 3: the identity is over 63"
    say "access? 12 000110010001110011001100010011010000 => refused 8: the parity is bad, 3 in disagreement, the nearest burst is for identity 7"
    say "control? $(zeros 456) => refused 8: the parity is bad, 0 in disagreement"
}

# Bits that are missing: six of a burst to bench seven, one altered and four missing, all of it, and all of a control block.
lossy_lines() {
    say "access? 7 002112012001112010201100010011210000 => good, 0 in disagreement: 01101001"
    say "access? 12 002112012001112010201100010011210000 => refused 8: the parity is bad, 0 in disagreement, the nearest burst is for identity 7"
    say "access? 7 000112012001112010201100010011110000 => good, 1 in disagreement: 01101001"
    say "access? 63 $(twos 36) => good, 0 in disagreement: 00000000"
    say "access? 62 $(twos 36) => refused 8: the parity is bad, 0 in disagreement, the nearest burst is for identity 63"
    say "access? 64 $(twos 36) => refused 3: the identity is over 63"
    say "access? 63 $(twos 37) => refused 1: a buffer has the wrong length, access? reads 36 bits"
    say "whose 002112012001112010201100010011210000 => identity 7, 0 in disagreement"
    say "whose 000112012001112010201100010011110000 => identity 7, 1 in disagreement"
    say "whose $(twos 36) => identity 63, 0 in disagreement"
    say "whose $(twos 37) => refused 1: a buffer has the wrong length, whose reads 36 bits"
    say "control? $(twos 456) => refused 8: the parity is bad, 0 in disagreement"
}

# Where what is received has missing bits, the desk answers as it stands there.
check_missing() { # DESK ROOM
    lossy_lines >"$2/typed"
    sed 's/ => .*//' "$2/typed" | run_host "$1" >"$2/got"
    sed 's/.* => //' "$2/typed" >"$2/want"
    if [ -s "$2/want" ] && cmp "$2/got" "$2/want"; then
        good "desk on $(wc -l <"$2/want") lines with missing bits"
    else
        bad "desk on missing bits"
    fi
}

# The refusals with their words, as README.md has them.
printed_refusals() { sed -n '/^| refusal | why |$/,/^$/s/^| \([0-9]*\) | \(.*\) |$/refused \1: \2/p' "$1"; } # README

# Every refusal has the words of README.md; after a comma more may follow.
refusals_as_printed() { # REFUSALS ANSWERS
    [ -s "$1" ] && awk -F '[ :]' '
        NR == FNR { printed[$2] = $0 ","; next }
        $1 == "refused" && !($2 in printed && index($0 ",", printed[$2]) == 1) { print; wrong = 1 }
        END { exit wrong }
    ' "$1" "$2"
}

# The reasons of refusals, of the lines above and of made ones.
check_reasons() { # DESK REFERENCE ROOM README
    refused_lines >"$3/typed"
    { sed 's/ => .*//' "$3/typed" && "$2" make-lines 5 2000 && "$2" make-received 5 2000 && "$2" make-whose 5 2000; } >"$3/lines"
    sed 's/.* => //' "$3/typed" >"$3/want"
    run_host "$1" <"$3/lines" >"$3/said"
    head -n "$(wc -l <"$3/want")" "$3/said" >"$3/got"
    printed_refusals "$4" >"$3/refusals"
    if cmp "$3/got" "$3/want" && refusals_as_printed "$3/refusals" "$3/said"; then
        good "desk gives README's reasons in $(grep -c '^refused' "$3/said") refusals"
    else
        bad "desk gives other reasons than README"
    fi
}

endless() { head -c 3000000 /dev/zero | tr '\0' "$1"; }

# Each byte as a bit that is sent or received, as a number, in a word, between the words and alone.
every_byte() {
    LC_ALL=C awk -v zeros="$(zeros 35)" 'BEGIN {
        for (i = 0; i < 256; i++) {
            printf "control %c\naccess 0 0000000%c\naccess %c 00000000\naccess? 63 %s%c\n", i, i, i, zeros, i
            printf "access%c 0 00000000\naccess%c0 00000000\n%c\n", i, i, i
            printf "whose %s%c\nwhose%c%s0\n", zeros, i, i, zeros
        }
    }'
}

hostile_input() { # NAME REFERENCE
    case $1 in
    empty) ;;
    blank) printf '\n\n' ;;
    unended) printf 'access 0 00000000\naccess? 63 %s' "$(zeros 36)" ;;
    endless-word) endless 1 ;;
    endless-bits) printf 'control ' && endless 1 ;;
    endless-number) printf 'access ' && endless 9 && printf ' 00000000\naccess 0 00000000\n' ;;
    endless-spaces) endless ' ' ;;
    zero-bytes) head -c 100000 /dev/zero ;;
    high-bytes) printf 'control ' && endless '\377' ;;
    every-byte) every_byte ;;
    made-lines) "$2" make-lines 4 4000 ;;
    esac
}

# Every answer is one that is foreseen, and there is one for each line.
answers_each_line() { # INPUT ANSWERS
    ! in_kit_words <"$2" | LC_ALL=C grep -aqvE '^([01]+|[0-9]+ [01]+|[0-9]{1,2} [0-9]{1,2}|refused [123]|refused 8 [0-9]+|[?])$' &&
        [ "$(LC_ALL=C grep -ac '' <"$2")" -eq "$(LC_ALL=C grep -ac '' <"$1")" ]
}

# Whatever the input holds, the desk ends with status 0 and one answer a line.
hostile_desk() { # DESK REFERENCE ROOM NAME
    hostile_input "$4" "$2" >"$3/lines"
    run_host "$1" <"$3/lines" >"$3/said" 2>&1
    status=$?
    if [ "$status" -eq 0 ] && answers_each_line "$3/lines" "$3/said"; then
        good "desk on $4 input"
    else
        bad "desk on $4 input (exit $status)"
    fi
}

# Requests that are all answered by 36 zeros.
requests() { # one|endless
    case $1 in
    one) say 'access 63 00000000' ;;
    endless) yes 'access 63 00000000' 2>/dev/null ;;
    esac
}

# Runs the desk program for at most 20 seconds.
run_in_time() { # DESK
    # shellcheck disable=SC2016 # the shell that timeout starts puts it in
    timeout 20 sh -c '. host/setup.sh && run_host "$1"' desk "$1"
}

# Where an answer cannot be written the desk says why, and stops though there may be more to answer.
full_desk() { # DESK ROOM one|endless
    requests "$3" | run_in_time "$1" >/dev/full 2>"$2/said"
    status=$?
    if [ "$status" -eq 1 ] && [ "$(cat "$2/said")" = 'desk: an answer could not be written: No space left on device' ]; then
        good "desk where an answer cannot be written, requests: $3"
    else
        cat "$2/said"
        bad "desk where an answer cannot be written, requests: $3 (exit $status)"
    fi
}

# Where its pipe is read no longer the desk stops without a word, also if the signal that tells of it is ignored.
stops_with_pipe() ( # DESK ROOM kept|ignored
    [ "$3" = kept ] || trap '' PIPE
    requests endless | { run_in_time "$1" 2>"$2/said"; say "$?" >"$2/status"; } | head -n 1 >"$2/got"
    status=$(cat "$2/status")
    [ "$(cat "$2/got")" = "$(zeros 36)" ] && [ "$status" -ne 0 ] && [ "$status" -ne 124 ] && [ ! -s "$2/said" ]
)

closed_desk() { # DESK ROOM kept|ignored
    if stops_with_pipe "$1" "$2" "$3"; then
        good "desk where its pipe is closed, the signal $3"
    else
        cat "$2/said"
        bad "desk where its pipe is closed, the signal $3 (exit $(cat "$2/status"))"
    fi
}

# Runs a program in C that looks at its calls itself; where it fails, shows what it said, or its compiler.
passes() { # PROGRAM ROOM
    [ -x "$1" ] || { cat "$1.log" 2>&1; return 1; }
    run_host "$1" >"$2/said" 2>&1 || { cat "$2/said"; return 1; }
}

# Identities of several types of C.
check_widths() { # WIDTHS ROOM
    if passes "$1" "$2"; then good "desk: $(cat "$2/said")"; else bad "desk on identities of several types of C"; fi
}

# Every refusal of README, and no other, has its words in desk.h.
check_words() { # REASONS ROOM README
    printed_refusals "$3" >"$2/refusals"
    if passes "$1" "$2" && [ -s "$2/refusals" ] && cmp "$2/said" "$2/refusals"; then
        good "desk.h has README's words for $(wc -l <"$2/refusals") refusals"
    else
        bad "desk.h has other words for refusals than README"
    fi
}

# How much stack the calls need.
check_stack() { # STACK ROOM
    if passes "$1" "$2"; then
        used=$(sed -n 's/^desk_[a-z_]*: \([0-9]*\) bytes of stack$/\1/p' "$2/said" | paste -s -d ' ' -)
        good "desk: the calls use $used bytes of stack, no more than desk.h says"
    else
        bad "desk: the stack that the calls use"
    fi
}

# Of README's section on programs in C, the block of this number among those of a language, the empty one for what is printed.
printed_block() { # README LANGUAGE NUMBER
    awk -v language="$2" -v number="$3" '
        !inside && /^##/ { here = $0 == "### Your own C program" }
        !here { next }
        inside && $0 == "```" { inside = wanted = 0; next }
        wanted { print }
        !inside && /^```/ { inside = 1; wanted = substr($0, 4) == language && ++found == number }
    ' "$1"
}

# The program of README, built and run by the lines that it has for this machine, where host and target are as in the repository.
run_printed_program() { # README PLACE
    if on_x86_64; then number=1; else number=2; fi
    mkdir "$2" && ln -s "$PWD/host" "$PWD/target" "$2" || return 1
    printed_block "$1" c 1 >"$2/request.c"
    printed_block "$1" sh "$number" >"$2/lines"
    (cd "$2" && sh -e ./lines)
}

check_printed_program() { # README ROOM
    rm -rf "$2/program"
    printed_block "$1" '' 1 >"$2/want"
    if run_printed_program "$1" "$2/program" >"$2/got" 2>&1 && [ -s "$2/want" ] && cmp "$2/got" "$2/want"; then
        good "the C program of README does what is printed there"
    else
        cat "$2/got"
        bad "the C program of README"
    fi
}

check_desk() { # DESK REFERENCE ROOM
    for seed in 1 2 3; do
        compare_desk "$1" "$2" "$3" make-lines "$seed" 10000 plain
        compare_desk "$1" "$2" "$3" make-received "$seed" 4000 plain
        compare_desk "$1" "$2" "$3" make-whose "$seed" 4000 plain
        check_whose "$1" "$2" "$3" make-received "$seed" 4000
        check_whose "$1" "$2" "$3" make-whose "$seed" 4000
    done
    check_missing "$1" "$3"
    compare_twins "$1" "$2" "$3"
    compare_desk "$1" "$2" "$3" make-lines 4 10000 Windows
    compare_desk "$1" "$2" "$3" make-received 4 4000 Windows
    compare_desk "$1" "$2" "$3" make-whose 4 4000 Windows
    check_returns_and_marks "$1" "$3"
    check_reasons "$1" "$2" "$3" README.md
    for name in empty blank unended endless-word endless-bits endless-number endless-spaces zero-bytes high-bytes every-byte \
        made-lines; do
        hostile_desk "$1" "$2" "$3" "$name"
    done
    for name in one endless; do full_desk "$1" "$3" "$name"; done
    for signal in kept ignored; do closed_desk "$1" "$3" "$signal"; done
}
