# What the scripts share: their options, the toolchain and its pinned identity, one run at a time, proofs that are seen to go on, the proved
# programs, Debian's packages, and hosts in C and Rust of a proved library. Sourced, by POSIX sh, in the repository's folder.

say() { printf '%s\n' "$*"; }
complain() { printf '%s\n' "$*" >&2; }
zeros() { printf "%0$1d" 0; } # COUNT
twos() { zeros "$1" | tr 0 2; } # COUNT

# ---- options

# The release, and the toolchain with which it was proved.
say_version() {
    say "Damasquel $(cat VERSION)"
    say "proved with the toolchain $(cat toolchain.txt)"
}

# Answers --help and --version; any other argument is refused, before anything is done.
options() { # USAGE ARGUMENT...
    usage=$1
    shift
    [ $# -gt 0 ] || return 0
    case $#:$1 in
    1:--help | 1:-h) say "$usage" ;;
    1:--version) say_version ;;
    *)
        complain "unknown argument: $*"
        complain "${usage%%
*}"
        exit 2
        ;;
    esac
    exit
}

# ---- the toolchain

# rt is given no input anywhere here: it does not even start on one that cannot be read.
rt_version() { rt version </dev/null; }

# The Rattle toolchain must be here already; everything else is installed.
find_toolchain() {
    pinned=$(cat toolchain.txt)
    if ! command -v rt >/dev/null 2>&1; then
        complain "no command rt: it is the command of the toolchain of Rattle, the language in which all this is written and proved."
        complain "Needed is the version '$pinned', with its command rt on the PATH; with another version the scripts say so and go on."
        return 1
    fi
    here=$(rt_version)
    # a run that another one started is part of it, and that one has said it
    [ "$here" = "$pinned" ] || [ -n "${DAMASQUEL_ALONE:-}" ] || complain "note: proved with the toolchain '$pinned'; the one here is '$here'"
}

# From here on this run proves or tests alone in this folder; where another one does, it says so and waits.
begin_alone() {
    [ -z "${DAMASQUEL_ALONE:-}" ] || return 0
    exec 9<.
    if ! flock -n 9; then
        complain "another run is proving or testing in this folder; this one goes on when that one is done"
        flock 9 || return 1
    fi
    # what this run starts is part of it
    export DAMASQUEL_ALONE=yes
}

# Lets the next run in.
end_alone() { exec 9<&-; }

# ---- proofs

# One number for all that the proofs depend on; none where that cannot be told.
sources() {
    of=$(rt_version && cat crates.txt && find crates -regex 'crates/[^/]*/\(out\|must-fail\)' -prune -o -type f -exec sha256sum {} + | sort) || return 1
    say "$of" | sha256sum
}

# What is noted of a file beside it: the sources as they were when it was made, and the file itself, which rt may make anew without us.
made_of() { say "$2, $(sha256sum <"$1")"; } # FILE SOURCES

# Is the file there, and was it made from what the sources are now?
is_made() { [ -f "$1" ] && [ "$(cat "$1.made" 2>/dev/null)" = "$(made_of "$1" "$2")" ]; } # FILE SOURCES

# Notes that the file was made from these sources, unless they have changed since they were read.
note_made() { [ "$(sources)" != "$2" ] || made_of "$1" "$2" >"$1.made"; } # FILE SOURCES

# Of what rt says, a line for each crate that is proved.
proved_crates() { sed -u -n -e '/^crate \([^ ]*\): modules .*/ { s//    \1 proved/; h; }' -e '/^logic=proved / { x; p; }'; }

# Runs rt in a crate's folder, with no input, and shows each crate as it is done; where it fails, all that it said.
show_crates() { # CRATE RT-WORD
    log=$(mktemp) || return 1
    { (cd "crates/$1" && rt "$2" </dev/null 2>&1); say "rt ended with status $?"; } | tee "$log" | proved_crates >&2
    case $(tail -n 1 "$log") in
    'rt ended with status 0') status=0 ;;
    *) cat "$log" >&2 && status=1 ;;
    esac
    rm -f "$log"
    return "$status"
}

# Proves and builds what is not made from the sources as they are.
make_proved() { # FILE WHAT CRATE RT-WORD BUILT
    file=$1 what=$2 crate=$3 word=$4 built=crates/$3/out/$5
    begin_alone && now=$(sources) || return 1
    if ! is_made "$file" "$now"; then
        complain "proving and building $what: some minutes the first time; each crate is named when it is done"
        rm -f "$file.made"
        show_crates "$crate" "$word" || return 1
        [ "$file" = "$built" ] || { mkdir -p "$(dirname "$file")" && cp "$built" "$file"; } || return 1
        note_made "$file" "$now"
    fi
}

# rt builds a program in order to run it, here on an empty input, and leaves it in the crate's folder out.
prove_program() { make_proved "crates/$1/out/$1" "the program $1" "$1" run "$1"; } # NAME

# The crate NAME_c exports the library NAME to C, whose hosts link it as libNAME.a.
prove_library() { make_proved "target/staticlib/lib$1.a" "the library $1" "$1_c" lib "lib$1_c.a"; } # NAME

# After rt ci: the programs that it has built of these sources need not be built again.
note_programs() { # SOURCES
    for main in crates/*/src/main.rt; do
        program=${main#crates/}
        program=${program%%/*}
        [ ! -f "crates/$program/out/$program" ] || note_made "crates/$program/out/$program" "$1"
    done
}

# Runs a proved program, which its script has built.
run_proved() { "crates/$1/out/$1"; } # NAME

# Runs a proved program, which has no status of its own: what it says on standard error is that something could not be read or written.
run_to_its_end() { # SCRIPT NAME
    { said=$(run_proved "$2" 2>&1 >&3 3>&-); } 3>&1
    status=$?
    [ -n "$said" ] || return "$status"
    complain "$1: $said"
    return 1
}

# A word to whoever types, before the first line.
greet() { [ ! -t 0 ] || complain "$1; Ctrl-D at the beginning of a line ends it"; } # HOW

# Proves and builds a program, and runs it on what is typed or piped in.
run_program() { # SCRIPT NAME HOW
    find_toolchain && prove_program "$2" || return 1
    end_alone
    greet "$3"
    run_to_its_end "$1" "$2"
}

# ---- Debian's packages

# Is the package installed? NAME:amd64 is one of the other architecture.
is_installed() { dpkg-query -W -f '${db:Status-Status}\n' "$1" 2>/dev/null | grep -qx installed; } # PACKAGE

# Those packages that are not installed.
not_installed() { # PACKAGE...
    for package; do is_installed "$package" || printf ' %s' "$package"; done
}

# The command that installs packages and upgrades none of those that are there.
install_command() { # PACKAGE...
    case " $*" in *:amd64*) printf 'dpkg --add-architecture amd64 && ' ;; esac
    say "apt-get update && apt-get install -y --no-install-recommends --no-upgrade --no-remove $*"
}

# What an installation would upgrade, for the sake of what it brings.
upgraded_by() { apt-get -s install -y --no-install-recommends --no-upgrade --no-remove "$@" | sed -n 's/^Inst \([^ ]*\) \[.*/\1/p'; } # PACKAGE...

# Installs those packages that are missing, for a purpose; says so before, and upgrades nothing.
need_packages() { # PURPOSE PACKAGE...
    purpose=$1
    shift
    # shellcheck disable=SC2046 # one word for each package
    set -- $(not_installed "$@")
    [ $# -gt 0 ] || return 0
    if [ "$(id -u)" -ne 0 ]; then
        complain "packages of Debian that are needed $purpose: $*"
        complain "only root may install them, by: $(install_command "$@")"
        return 1
    fi
    complain "installing packages of Debian, $purpose: $*"
    case " $*" in *:amd64*) dpkg --add-architecture amd64 || return 1 ;; esac
    apt-get -q update >&2 || return 1
    upgraded=$(upgraded_by "$@")
    if [ -n "$upgraded" ]; then
        # shellcheck disable=SC2086 # in one line
        complain "not installed, since this would upgrade:" $upgraded
        complain "to allow it: apt-get install -y --no-install-recommends $*"
        return 1
    fi
    DEBIAN_FRONTEND=noninteractive apt-get -q install -y --no-install-recommends --no-upgrade --no-remove "$@" >&2
}

# Installs the package that brings a command, where there is no such command.
need_command() { command -v "$2" >/dev/null 2>&1 || need_packages "$1" "$3"; } # PURPOSE COMMAND PACKAGE

need_rust() { need_command "to compile the reference, which is in Rust" rustc rustc; }

# ---- hosts of a proved library. It is x86-64, and so is each host: built and run natively there, elsewhere cross-built without shared
# libraries and run by Debian's emulator.

on_x86_64() { [ "$(uname -m)" = x86_64 ]; }

need_c() {
    if on_x86_64; then
        need_command "to compile C" gcc gcc && need_packages "to compile C" libc6-dev
    else
        need_packages "to compile C for x86-64 and to run it" gcc-x86-64-linux-gnu libc6-dev-amd64-cross qemu-user
    fi
}

# Where Rust's own library for x86-64 stands on another processor, and what is to be linked before the cross compiler's own libraries.
rust_std=.debian/rust
before_libraries=.debian/lib

# Rust's own library for x86-64, unpacked from Debian's package into the repository's folder: installed, it would bring a C library for x86-64, which must
# have the version of the one that is here.
need_rust_std() {
    [ ! -d "$rust_std/usr/lib/rustlib/x86_64-unknown-linux-gnu" ] || return 0
    complain "fetching Debian's package libstd-rust-dev for x86-64 into .debian, to compile Rust for x86-64"
    lists=$(mktemp -d) && mkdir -p "$lists/state/lists/partial" "$lists/cache/archives/partial" .debian && : >"$lists/status" || return 1
    set -- -q -o APT::Architecture=amd64 -o APT::Architectures=amd64 -o APT::Sandbox::User=root -o "Dir::State=$lists/state" -o "Dir::State::status=$lists/status" \
        -o "Dir::Cache=$lists/cache"
    rm -rf "$rust_std.new"
    { apt-get "$@" update && (cd "$lists" && apt-get "$@" download libstd-rust-dev) && dpkg -x "$lists"/libstd-rust-dev_*.deb "$rust_std.new"; } >&2 &&
        mv "$rust_std.new" "$rust_std"
    status=$?
    rm -rf "$lists"
    return "$status"
}

# The cross compiler's libm.a is a text that names its parts where they would be installed for x86-64; this one names them where they are.
need_libm() {
    [ ! -f "$before_libraries/libm.a" ] || return 0
    mkdir -p "$before_libraries"
    there=/usr/x86_64-linux-gnu/lib
    if grep -q '^GROUP' "$there/libm.a"; then sed "s|/usr/lib/x86_64-linux-gnu/|$there/|g" "$there/libm.a" >"$before_libraries/libm.a"; fi
}

# What hosts in Rust need, besides what those in C do; only Debian's own rustc has the version of the library that is unpacked.
need_rust_hosts() {
    need_c || return 1
    if on_x86_64; then need_rust; else need_packages "to compile Rust for x86-64" rustc && need_rust_std && need_libm; fi
}

# What is counted with, and the library that it counts beside ours.
need_speed_tools() {
    need_rust_hosts || return 1
    set -- "to count instructions beside libosmocoding"
    if on_x86_64; then need_packages "$@" qemu-user libosmocore-dev; else need_packages "$@" libc6-dev:amd64 libosmocore-dev:amd64; fi
}

# One number for all that the desk program is built from.
desk_sources() { cat target/staticlib/libdesk.a host/desk/desk.c host/desk/desk.h host/setup.sh | sha256sum; }

# The desk program, in C over the proved library desk.
build_desk() { # OUT
    prove_library desk || return 1
    is_made "$1" "$(desk_sources)" || { need_c && build_c "$1" host/desk/desk.c target/staticlib/libdesk.a && made_of "$1" "$(desk_sources)" >"$1.made"; }
}

# Builds a program in C.
build_c() { # OUT SOURCE...
    if on_x86_64; then build_c_shared "$@"; else build_c_shared "$@" -static; fi
}

# Builds a program in C on shared libraries.
build_c_shared() { # OUT SOURCE...
    out=$1
    shift
    if on_x86_64; then set -- gcc "$@"; else set -- x86_64-linux-gnu-gcc "$@"; fi
    "$@" -O2 -std=c11 -Wall -Wextra -Werror -pedantic -o "$out"
}

# Builds the tests of a Rust source.
build_rust_tests() { build_rust "$@" --test; } # OUT SOURCE ARG...

# Builds a program in Rust.
build_rust() { # OUT SOURCE ARG...
    out=$1
    shift
    if on_x86_64; then
        set -- rustc "$@"
    else
        set -- /usr/bin/rustc --sysroot "$rust_std/usr" --target x86_64-unknown-linux-gnu -C linker=x86_64-linux-gnu-gcc \
            -L "native=$before_libraries" -C target-feature=+crt-static -C relocation-model=static "$@"
    fi
    "$@" -O --edition 2021 -o "$out"
}

# Runs a program of build_c, build_rust or build_rust_tests.
run_host() { # PROGRAM ARG...
    if on_x86_64; then "$@"; else qemu-x86_64 "$@"; fi
}
