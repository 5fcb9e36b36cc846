# The proved programs beside the independent reference, on made lines and on hostile input. Sourced by POSIX sh after host/setup.sh, where good
# and bad tell of what passed and what failed, and room is a temporary folder with the reference in it.

# A proved program and the reference answer the same lines.
compare() { # PROGRAM MODE MAKER SEED [COUNT]
    "$room/reference" "$3" "$4" ${5:+"$5"} >"$room/lines"
    "$room/reference" "$2" <"$room/lines" >"$room/want"
    run_proved "$1" <"$room/lines" >"$room/got" 2>"$room/said"
    status=$?
    if [ "$status" -eq 0 ] && [ -s "$room/want" ] && [ ! -s "$room/said" ] && cmp "$room/got" "$room/want"; then
        good "$1 and the reference on $(grep -ac '' <"$room/lines") lines of $3, seed $4"
    else
        bad "$1 and the reference differ on lines of $3, seed $4 (exit $status)"
    fi
}

# Whatever the input holds, a program ends with status 0 and one answer a line.
hostile() { # PROGRAM MODE NAME
    "$room/reference" "$2" <"$room/$3" >"$room/want"
    run_proved "$1" <"$room/$3" >"$room/got" 2>"$room/said"
    status=$?
    if [ "$status" -eq 0 ] && [ ! -s "$room/said" ] && cmp "$room/got" "$room/want"; then
        good "$1 on $3 input"
    else
        bad "$1 on $3 input (exit $status)"
    fi
}

# Many small texts from Windows: each has a first and a last line.
compare_small_texts() {
    seed=1
    while [ "$seed" -le 80 ]; do
        "$room/reference" make-windows "$seed" 3 >"$room/lines"
        "$room/reference" answer <"$room/lines" >"$room/want"
        run_proved kit <"$room/lines" >"$room/got" 2>&1
        [ -s "$room/want" ] && cmp "$room/got" "$room/want" || { bad "kit and the reference differ on make-windows $seed 3" && return; }
        seed=$((seed + 1))
    done
    good "kit and the reference on 80 texts of three lines from Windows"
}

# Marks and carriage returns where they are passed over, and where they are not.
marks_and_returns() {
    printf '\357\273\277access 0 00000000\r\naccess 0 00000000\r\r\naccess\r 0 00000000\n'
    printf '\357\273\277access 0 00000000\n\r\n\r'
}

# Every input that a program must stand, each in a file of its own.
hostile_inputs="empty endless blank every-byte marks-and-returns mark mark-and-newline mark-and-return two-marks half-a-mark return"
make_hostile_inputs() {
    : >"$room/empty"
    head -c 3000000 /dev/zero | tr '\0' '1' >"$room/endless"
    printf '\n\n' >"$room/blank"
    LC_ALL=C awk 'BEGIN { for (i = 0; i < 256; i++) printf "speech %c%c\n%c", i, i, i }' >"$room/every-byte"
    marks_and_returns >"$room/marks-and-returns"
    printf '\357\273\277' >"$room/mark"
    printf '\357\273\277\n' >"$room/mark-and-newline"
    printf '\357\273\277\r' >"$room/mark-and-return"
    printf '\357\273\277\357\273\277end\n' >"$room/two-marks"
    printf '\357\273' >"$room/half-a-mark"
    printf '\r' >"$room/return"
}

hostile_all() { # PROGRAM MODE
    make_hostile_inputs
    for input in $hostile_inputs; do hostile "$1" "$2" "$input"; done
}

# The handbook's examples: the kit and the reference answer as the paper says.
compare_handbook() {
    { handbook && all_missing && some_missing && lent_buffers && efr_lines && whose_lines && mark_lines && hub_lines && frame_lines; } >"$room/handbook"
    sed 's/ => .*//' "$room/handbook" >"$room/lines"
    sed 's/.* => //' "$room/handbook" >"$room/want"
    "$room/reference" answer <"$room/lines" >"$room/from-reference"
    run_proved kit <"$room/lines" >"$room/got"
    if [ -s "$room/want" ] && cmp "$room/got" "$room/want" && cmp "$room/from-reference" "$room/want"; then
        good "the handbook's examples that are run, missing bits, lent buffers, enhanced full rate, whose a burst was, marks, the hub and frames: $(wc -l <"$room/want") lines"
    else
        bad "the handbook's examples that are run, missing bits, lent buffers, enhanced full rate, whose a burst was, marks, the hub or frames"
    fi
    if flags_as_printed; then good "four altered flags are repaired, or give 9 where both parities are bad"; else bad "altered flags"; fi
    if missing_flags_as_said; then good "missing flags have no vote"; else bad "missing flags"; fi
    if lost_bursts_as_said; then good "a block is found though one of its bursts never came"; else bad "bursts that never came"; fi
    if classes_as_proved; then good "blocks without bursts at even places or at odd come back, in each of 30 ways, and one without five bursts does not"; else bad "bursts lost by class"; fi
    if messages_as_proved; then good "messages without bursts at even places or at odd come back, in each of 6 ways"; else bad "bursts of a message lost by class"; fi
}

compare_kit() {
    for seed in 1 2 3; do
        compare kit answer make-lines "$seed" 10000
        compare kit answer make-views "$seed" 4000
        compare kit answer make-received "$seed" 4000
        compare kit answer make-lessons "$seed" 4000
        compare kit answer make-stream "$seed" 600
        compare kit answer make-lend "$seed" 4000
        compare kit answer make-help "$seed" 4000
        compare kit answer make-totals "$seed" 4000
        compare kit answer make-ties "$seed" 4000
        compare kit answer make-missing "$seed" 4000
        compare kit answer make-bursts "$seed" 4000
        compare kit answer make-efr "$seed" 4000
        compare kit answer make-whose "$seed" 4000
        compare kit answer make-marks "$seed" 4000
        compare kit answer make-hub "$seed" 4000
        compare kit answer make-frames "$seed" 4000
        compare kit answer make-windows "$seed" 4000
    done
    compare_small_texts
    # one stream of all 16,383 blocks, to its end
    compare kit answer make-full 1
    compare_handbook
    hostile_all kit answer
}

compare_sheet() {
    for seed in 1 2 3; do compare access_sheet sheet make-sheet "$seed" 5000; done
    hostile_all access_sheet sheet
}
