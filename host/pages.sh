# The commands of a page, run in order, and what comes back beside what the page prints. Sourced by POSIX sh after host/setup.sh.

# The folder in which a page is run, new, with the repository's programs in it; beside it one for the page's parts.
page_folders() { # ROOM
    rm -rf "${1:?}/page" "$1/parts" && mkdir "$1/page" "$1/parts" || return 1
    for program in kit desk sheet; do ln -s "$PWD/$program" "$1/page/$program" || return 1; done
}

# Takes a page apart: command K goes to PARTS/K.typed, the lines after it to PARTS/K.printed; prints the number of commands.
page_parts() { # PAGE PARTS
    awk -v parts="$2" '
        /^```/ { fenced = !fenced; first = fenced; commands = 0; next }
        first { first = 0; commands = /^\$ / }
        !commands { next }
        /^\$ / {
            if (count) { close(typed); close(printed) }
            count++
            typed = parts "/" count ".typed"
            printed = parts "/" count ".printed"
            print substr($0, 3) >typed
            printf "" >printed
            next
        }
        { print >printed }
        END { print count + 0 }
    ' "$1"
}

# Runs a command in the page's folder; what it prints, errors too, goes to PARTS/K.got.
run_typed() { # ROOM K
    typed=$(cat "$1/parts/$2.typed")
    (cd "$1/page" && sh -c "$typed") >"$1/parts/$2.got" 2>&1 </dev/null
}

# A part of the page under its name, each line cut to 200 characters.
show_part() { # NAME FILE
    say "$1:"
    cut -c 1-200 "$2" | sed 's/^/    /'
}

# The command ends with status 0, and exactly what the page prints after it comes back.
command_as_printed() { # PAGE ROOM K
    part=$2/parts/$3
    run_typed "$2" "$3"
    ended=$?
    [ "$ended" -eq 0 ] && cmp -s "$part.printed" "$part.got" && return 0
    say "$1: command $3 does not come out as printed; it ended with status $ended"
    cmp "$part.printed" "$part.got" 2>&1
    show_part typed "$part.typed"
    show_part expected "$part.printed"
    show_part got "$part.got"
    return 1
}

# Every command of the page comes out as printed, and there is one; ROOM/commands has the number of those that were run.
page_as_printed() { # PAGE ROOM
    say 0 >"$2/commands"
    page_folders "$2" && found=$(page_parts "$1" "$2/parts") || return 1
    [ "$found" -gt 0 ] || { say "$1: no command in it"; return 1; }
    k=0
    while [ "$k" -lt "$found" ]; do
        k=$((k + 1))
        say "$k" >"$2/commands"
        command_as_printed "$1" "$2" "$k" || return 1
    done
}
