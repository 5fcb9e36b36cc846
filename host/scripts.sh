# The scripts as a user meets them: what they say of themselves, refuse, install and wait for, and what becomes of answers that nobody can read. Most is tried
# in a copy with stand-ins for the toolchain and for Debian's tools. Sourced by POSIX sh after host/setup.sh, where good and bad tell of what
# passed and what failed, and room is a temporary folder.

# Where all of it stands.
name_folders() {
    copy=$room/copy # the scripts without anything proved or built
    few=$room/few   # few commands, and rt is not one of them
    fake=$room/fake # stand-ins
}

# Links to the commands that the scripts call themselves.
make_few() {
    mkdir -p "$few"
    for command in sh cat chmod cp dirname env find flock grep head mkdir mktemp readlink rm sed sha256sum sleep sort tail tee timeout touch tr uname; do
        ln -sf "$(command -v "$command")" "$few/$command"
    done
}

# The scripts, crates, and a folder target that nothing may touch.
make_copy() {
    mkdir -p "$copy/crates/one/src" "$copy/crates/kit/src" "$copy/crates/access_sheet/src" "$copy/target"
    cp -r kit sheet desk test host VERSION toolchain.txt "$copy"
    : >"$copy/target/kept"
    printf 'one:\n' >"$copy/crates.txt"
    for file in one/src/lib kit/src/main access_sheet/src/main; do printf '// nothing\n' >"$copy/crates/$file.rt"; done
}

# A command that is a script.
stand_in() { # NAME < TEXT
    mkdir -p "$(dirname "$fake/$1")"
    { say '#!/bin/sh' && cat; } >"$fake/$1"
    chmod +x "$fake/$1"
}

# A toolchain whose proofs are words, and whose programs say what they read. It notes what it is asked for, and where. On the whole it says what stands in
# the file whole.
make_toolchain() {
    mkdir -p "$fake" && cp toolchain.txt "$fake/version"
    stand_in bin/rt <<EOF
here=\${PWD##*/}
echo "rt \$* in \$here" >>"$fake/asked"
build() {
    mkdir -p out
    printf '#!/bin/sh\\nexec cat\\n' >"out/\$1"
    chmod +x "out/\$1"
}
case \$1 in
version) cat "$fake/version" ;;
run)
    echo "crate one: modules loaded=0 checked=1"
    [ ! -f "$fake/wrong" ] || { echo "logic=not-proved"; exit 1; }
    echo "logic=proved functions=1"
    echo "crate \$here: modules loaded=1 checked=1"
    echo "axioms std: none reached of the 2 declared"
    echo "logic=proved functions=2"
    build "\$here"
    ;;
ci)
    (cd crates/kit && build kit)
    cat "$fake/whole"
    tail -n 1 "$fake/whole" | grep -q ' 0 failed$'
    ;;
esac
EOF
}

# Debian's tools: no package but one is installed, one would upgrade another, and what is asked for is noted and, where something is done, said.
make_debian() {
    for tool in apt-get dpkg; do
        stand_in "bin/$tool" <<EOF
echo "$tool \$*" >>"$fake/asked"
case "\$*" in
-q*) echo "$tool does \$*" ;;
-s*old*) echo 'Inst new (1 Debian)' && echo 'Inst libc6 [1] (2 Debian)' ;;
esac
EOF
    done
    stand_in bin/dpkg-query <<'EOF'
for last; do :; done
case $last in present) echo installed ;; *) exit 1 ;; esac
EOF
    stand_in bin/id <<EOF
cat "$fake/user"
EOF
    stand_in bin/uname <<EOF
cat "$fake/machine"
EOF
}

# Runs a command with few others in reach; what it said and its status stay.
run_with() { # PATH COMMAND...
    path=$1
    shift
    : >"$fake/asked"
    (cd "$room" && unset DAMASQUEL_ALONE && PATH=$path exec "$@") >"$room/out" 2>"$room/err" </dev/null
    status=$?
}

# What was run last ended with this status, and said exactly this on its two outputs.
ended() { # STATUS OUTPUT ERRORS
    if [ "$status" -eq "$1" ] && [ "$(cat "$room/out")" = "$2" ] && [ "$(cat "$room/err")" = "$3" ]; then return 0; fi
    say "status $status, output:" && head -c 600 "$room/out" && say "errors:" && head -c 600 "$room/err"
    return 1
}

# Of the stand-ins exactly this was asked.
asked() { [ "$(cat "$fake/asked")" = "$1" ] || { say "asked:" && cat "$fake/asked" && return 1; }; } # LINES

everything_in() { find "$1" | sort; } # FOLDER

# ---- what they say of themselves

# On its output, with a line for each word of usage that has one.
says_how() {
    for script in kit sheet desk test; do
        for option in --help -h; do
            run_with "$few" "$copy/$script" "$option"
            [ "$status" -eq 0 ] && [ ! -s "$room/err" ] && [ "$(wc -l <"$room/out")" -ge 4 ] || return 1
            case $(head -n 1 "$room/out") in "usage: ./$script ["*'--help | --version]') ;; *) return 1 ;; esac
        done
    done
    for part in kit sheet desk reference scripts; do
        grep -q "^usage: .*[[ ]$part " "$room/out" && grep -q "^    $part  " "$room/out" || return 1
    done
}

says_version() {
    grep -Eqx '[0-9]+\.[0-9]+\.[0-9]+' VERSION || return 1
    for script in kit sheet desk test; do
        run_with "$few" "$copy/$script" --version
        ended 0 "Damasquel $(cat VERSION)
proved with the toolchain $(cat toolchain.txt)" '' || return 1
    done
}

# Any other argument is refused with a word of usage, and nothing is made or removed.
refuses_others() {
    everything_in "$copy" >"$room/before"
    for script in kit sheet desk test; do
        for arguments in nonsense '--help me' '--version 1' 'kit kit' ' '; do
            # shellcheck disable=SC2086 # several arguments
            case $arguments in ' ') run_with "$few:$fake/bin" "$copy/$script" '' ;; *) run_with "$few:$fake/bin" "$copy/$script" $arguments ;; esac
            case $arguments in ' ') given='' ;; *) given=$arguments ;; esac
            usage=$("$copy/$script" --help | head -n 1)
            ended 2 '' "unknown argument: $given
$usage" || return 1
        done
    done
    everything_in "$copy" | cmp - "$room/before"
}

# From another folder, through a symbolic link.
works_by_link() {
    ln -sf "$copy/kit" "$room/by-link"
    run_with "$few" "$room/by-link" --version
    ended 0 "$("$copy/kit" --version)" ''
}

says_what_is_missing() {
    for script in kit sheet desk; do
        run_with "$few" "$copy/$script"
        ended 1 '' "no command rt: it is the command of the toolchain of Rattle, the language in which all this is written and proved.
Needed is the version '$(cat toolchain.txt)', with its command rt on the PATH; with another version the scripts say so and go on." || return 1
    done
}

# ---- waiting

# Each crate is named as it is done; what is proved already starts at once; what changed is proved again.
shows_crates() {
    first="proving and building the program kit: some minutes the first time; each crate is named when it is done
    one proved
    kit proved"
    run_with "$few:$fake/bin" "$copy/kit" && ended 0 '' "$first" && grep -qx 'rt run in kit' "$fake/asked" || return 1
    run_with "$few:$fake/bin" "$copy/kit" && ended 0 '' '' && ! grep -q 'rt run' "$fake/asked" || return 1
    printf '// something\n' >"$copy/crates/one/src/lib.rt"
    run_with "$few:$fake/bin" "$copy/kit" && ended 0 '' "$first" || return 1
    run_with "$few:$fake/bin" "$copy/sheet" && ended 0 '' "proving and building the program access_sheet: some minutes the first time; each crate is named when it is done
    one proved
    access_sheet proved"
}

# What another command has put in the place of a program is not run.
runs_no_other() {
    printf '#!/bin/sh\necho another\n' >"$copy/crates/kit/out/kit"
    run_with "$few:$fake/bin" "$copy/kit" && ended 0 '' "proving and building the program kit: some minutes the first time; each crate is named when it is done
    one proved
    kit proved"
}

# A proof that fails is shown whole.
shows_failure() {
    : >"$fake/wrong"
    printf '// wrong\n' >"$copy/crates/one/src/lib.rt"
    run_with "$few:$fake/bin" "$copy/kit"
    rm "$fake/wrong"
    ended 1 '' "proving and building the program kit: some minutes the first time; each crate is named when it is done
crate one: modules loaded=0 checked=1
logic=not-proved
rt ended with status 1"
}

# Another toolchain is said, and everything is proved again with it; what a run starts does not say it once more.
notes_another_toolchain() {
    say other >"$fake/version"
    run_with "$few:$fake/bin" "$copy/kit"
    ended 0 '' "note: proved with the toolchain '$(cat toolchain.txt)'; the one here is 'other'
proving and building the program kit: some minutes the first time; each crate is named when it is done
    one proved
    kit proved" && run_with "$few:$fake/bin" env DAMASQUEL_ALONE=yes "$copy/kit" && ended 0 '' ''
    said=$?
    cp toolchain.txt "$fake/version"
    return "$said"
}

# What the gate makes of rt's word on the whole, which it asks for once: its first failure after rt's own. There is no rustc, so that it ends there at the latest.
gate_fails() { # RT'S-LINE RT'S-TALLY FAILURE
    { say "$1" && say "$2"; } >"$fake/whole"
    say 1000 >"$fake/user"
    run_with "$few:$fake/bin" "$copy/test"
    [ "$status" -eq 1 ] && [ "$(grep -c '^rt ci' "$fake/asked")" -eq 1 ] && grep -qx 'rt ci in copy' "$fake/asked" &&
        [ "$(sed -n 's/^FAILED: //p' "$room/out" | head -n 1)" = "$3" ] && return 0
    head -c 600 "$room/out" && return 1
}

# rt passes must-fail edits that show nothing, and the gate does not.
refuses_bad_edits() {
    well='rt: ok; handles allowed: none; must-fail edits: 83 refused' all='every proof and must-fail edit was done in this run' none='rustc, to compile the reference'
    gate_fails "$well; $all" '99 passed, 0 failed' "$none" && gate_fails "$well, 0 bad; $all" '99 passed, 0 failed' "$none" &&
        gate_fails "$well, 1 bad; $all" '99 passed, 0 failed' 'bad must-fail edits: 1' &&
        gate_fails "$well, 2 of them only by a limit, 10 bad; $all" '99 passed, 0 failed' 'bad must-fail edits: 10' &&
        gate_fails 'rt: well' '99 passed, 0 failed' 'rt ci did not say that all is well' && gate_fails "rt: FAILED: one" '99 passed, 1 failed' '' &&
        [ "$(tail -n 1 "$room/out")" = '99 passed, 1 failed' ] && gate_fails "$well; $all" 'rt: nothing more' 'rt ci gave no tally'
}

# What rt ci has built is not built again.
takes_from_gate() {
    printf '// something else\n' >"$copy/crates/one/src/lib.rt"
    gate_fails 'rt: ok; handles allowed: none; every proof was done in this run' '3 passed, 0 failed' 'rustc, to compile the reference' || return 1
    run_with "$few:$fake/bin" "$copy/kit" && ended 0 '' '' && ! grep -q 'rt run' "$fake/asked"
}

# A second run says that another one is running, and goes on when it is done.
waits_for_another() {
    run_with "$few:$fake/bin" "$copy/kit" # so that nothing is left to prove
    flock "$copy" sleep 4 &
    while flock -n "$copy" true; do sleep 0.1; done
    run_with "$few:$fake/bin" "$copy/kit"
    wait $!
    ended 0 '' "another run is proving or testing in this folder; this one goes on when that one is done"
}

# Can this machine give a terminal?
has_terminals() { script -qec true /dev/null </dev/null >/dev/null 2>&1; }

# At a terminal a word says what to type; elsewhere there is none.
greets() { # SCRIPT HOW
    printf '' | timeout 100 script -qec "./$1" /dev/null >"$room/out" 2>&1
    tr -d '\r' <"$room/out" | grep -qx "$2; Ctrl-D at the beginning of a line ends it" || { head -c 600 "$room/out" && return 1; }
}

# ---- installing

# Runs a function of host/setup.sh on a machine, as a user.
install_as() { # USER MACHINE FUNCTION ARG...
    say "$1" >"$fake/user"
    say "$2" >"$fake/machine"
    shift 2
    run_with "$fake/bin:$few" sh -c "cd '$copy' && . host/setup.sh && \"\$@\"" sh "$@"
}

installs_nothing_twice() { install_as 0 x86_64 need_packages 'to see' present present && ended 0 '' '' && asked ''; }

# Said before, and no more than that.
installs_what_is_missing() {
    install_as 0 x86_64 need_packages 'to see' present missing another
    ended 0 '' 'installing packages of Debian, to see: missing another
apt-get does -q update
apt-get does -q install -y --no-install-recommends --no-upgrade --no-remove missing another' &&
        asked 'apt-get -q update
apt-get -s install -y --no-install-recommends --no-upgrade --no-remove missing another
apt-get -q install -y --no-install-recommends --no-upgrade --no-remove missing another'
}

upgrades_nothing() {
    install_as 0 x86_64 need_packages 'to see' old
    ended 1 '' 'installing packages of Debian, to see: old
apt-get does -q update
not installed, since this would upgrade: libc6
to allow it: apt-get install -y --no-install-recommends old' && ! grep -q 'apt-get -q install' "$fake/asked"
}

# Whoever may not install is told the one command that would.
says_the_command() {
    install_as 1000 x86_64 need_packages 'to see' missing
    ended 1 '' 'packages of Debian that are needed to see: missing
only root may install them, by: apt-get update && apt-get install -y --no-install-recommends --no-upgrade --no-remove missing' && asked '' || return 1
    install_as 1000 aarch64 need_packages 'to see' missing:amd64
    ended 1 '' 'packages of Debian that are needed to see: missing:amd64
only root may install them, by: dpkg --add-architecture amd64 && apt-get update && apt-get install -y --no-install-recommends --no-upgrade --no-remove missing:amd64' &&
        asked ''
}

# C asks for no Rust, and nothing for another processor than this one's.
installs_for_c() {
    install_as 1000 x86_64 need_c
    grep -qx 'packages of Debian that are needed to compile C: gcc' "$room/err" || return 1
    install_as 1000 aarch64 need_c
    grep -qx 'packages of Debian that are needed to compile C for x86-64 and to run it: gcc-x86-64-linux-gnu libc6-dev-amd64-cross qemu-user' "$room/err"
}

# Rust's library for x86-64 is fetched, not installed.
fetches_for_rust() {
    install_as 0 aarch64 need_rust_std
    [ "$(head -n 1 "$room/err")" = "fetching Debian's package libstd-rust-dev for x86-64 into .debian, to compile Rust for x86-64" ] &&
        grep -q '^apt-get .* download libstd-rust-dev$' "$fake/asked" && ! grep -q install "$fake/asked"
}

# ---- answers that nobody can read, with the programs themselves

# An answer that cannot be written is said, the script ends then, and its status is not 0.
nothing_is_lost() { # SCRIPT LINE WORDS
    yes "$2" | timeout 100 "./$1" >/dev/full 2>"$room/err"
    status=$?
    [ "$status" -eq 1 ] && [ "$(cat "$room/err")" = "$3" ] || { say "status $status: $(cat "$room/err")" && return 1; }
}

# Nobody reads any more: no word is lost about it, whether the pipe's signal is ignored or not.
closed_pipe() { # SCRIPT LINE ANSWER
    for signal in "trap '' PIPE" :; do
        answer=$(eval "$signal" && { yes "$2" 2>/dev/null | timeout 100 "./$1" 2>"$room/err" | head -n 1; })
        [ "$answer" = "$3" ] && [ ! -s "$room/err" ] || { say "$answer, $(cat "$room/err")" && return 1; }
    done
}

unreadable_input() { # SCRIPT WORDS
    "./$1" <. >"$room/out" 2>"$room/err"
    status=$?
    ended 1 '' "$2"
}

# ---- what is printed

# host/README.md has a line for every file beside it and for every maker, and for nothing else.
files_are_named() {
    {
        sed -n '/^| `make-/d; s/^| `\([a-z].*\)` | .*/\1/p' host/README.md
        sed -n 's/^| `make-.* | `\(.*\)` |$/\1/p' host/README.md
    } | sort -u >"$room/named"
    find host -type f ! -path host/README.md | sed 's|^host/||' | sort | diff - "$room/named" || return 1
    sed -n 's/^| `\(make-[a-z]*\) .*/\1/p' host/README.md | sort >"$room/named"
    sed -n 's/^ *mode: "\(make-[a-z]*\)",/\1/p' host/reference/makers/mod.rs | sort | diff - "$room/named"
}

# Every command of a page comes out as printed.
try_page() { # PAGE
    if page_as_printed "$1" "$room"; then
        good "$1: $(cat "$room/commands") commands as printed"
    else
        bad "$1 is not as printed"
    fi
}

# One line of a check that has a name of its own.
try_script() { # WHAT COMMAND...
    what=$1
    shift
    if "$@"; then good "$what"; else bad "$what"; fi
}

test_scripts() {
    name_folders && make_few && make_copy && make_toolchain && make_debian
    try_script "each script says how it is used" says_how
    try_script "each script says its version" says_version
    try_script "each script refuses another argument, and does nothing" refuses_others
    try_script "a script works from another folder and by a link" works_by_link
    try_script "a script says what rt is, where it is missing" says_what_is_missing
    try_script "each crate is named when it is proved, and what is proved starts at once" shows_crates
    try_script "what stands in the place of a program is not run" runs_no_other
    try_script "a proof that fails is shown" shows_failure
    try_script "the gate fails where rt does, and where a must-fail edit is bad" refuses_bad_edits
    try_script "what the gate has built starts at once" takes_from_gate
    try_script "another toolchain is said" notes_another_toolchain
    try_script "a second run says that it waits" waits_for_another
    try_script "nothing is installed that is there" installs_nothing_twice
    try_script "what is installed is said before" installs_what_is_missing
    try_script "nothing is upgraded" upgrades_nothing
    try_script "who may not install is told the command" says_the_command
    try_script "C asks for no more than it needs" installs_for_c
    try_script "Rust's library for x86-64 is fetched, not installed" fetches_for_rust
    if has_terminals; then
        try_script "./kit says what to type" greets kit 'type a line, as help, which lists the words'
        try_script "./sheet says what to type" greets sheet 'type a line, as 63 00000000'
        try_script "./desk says what to type" greets desk 'type a line, as access 63 00000000'
    fi
    try_script "./kit says that an answer could not be written" nothing_is_lost kit help 'kit: an answer could not be written'
    try_script "./sheet says that an answer could not be written" nothing_is_lost sheet '63 00000000' 'sheet: an answer could not be written'
    try_script "./desk says that an answer could not be written" nothing_is_lost desk "access 63 $(zeros 8)" \
        'desk: an answer could not be written: No space left on device'
    try_script "./kit leaves a closed pipe in silence" closed_pipe kit 'why 3' 'the identity is over 63'
    try_script "./sheet leaves a closed pipe in silence" closed_pipe sheet '64 00000000' '64 refused 3'
    try_script "./desk leaves a closed pipe in silence" closed_pipe desk "access 63 $(zeros 8)" "$(zeros 36)"
    try_script "./kit says that its input cannot be read" unreadable_input kit 'kit: the input could not be read'
    try_script "./sheet says that its input cannot be read" unreadable_input sheet 'sheet: the input could not be read'
    try_script "./desk says that its input cannot be read" unreadable_input desk 'desk: the input could not be read: Is a directory'
    try_script "host/README.md names every file and every maker" files_are_named
    try_page README.md
    try_page docs/LESSON.md
    try_page docs/FRAME.md
    try_page docs/DRAWING.md
    try_script "the clocks of docs/DRAWING.md are those of the kit" drawing_as_run docs/DRAWING.md "$room"
    try_script "the code has the lines that docs/DRAWING.md quotes" lines_in_code docs/DRAWING.md crates/drawing/src/lib.rt
}
