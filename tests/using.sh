#!/bin/sh
# Runs the commands of docs/USING.md, taken from the page itself, and compares what they print with what the page shows.
# A comment `needs: ..` before a block names the commands that it needs.
. "$(dirname "$0")/helpers.sh"

page=$top/docs/USING.md

# Each block becomes a folder with the files needs and, for each of its commands, N.command and N.shown.
take_apart() {
    awk -v folder="$1" '
    /^<!-- needs: / { sub(/^<!-- needs: /, ""); sub(/ -->$/, ""); needs = $0; next }
    /^```console$/ {
        block = sprintf("%s/%02d", folder, ++blocks)
        system("mkdir -p \"" block "\"")
        print needs > (block "/needs")
        close(block "/needs")
        inside = 1
        commands = 0
        next
    }
    /^```/ { inside = 0; needs = "" }
    !inside { next }
    /^\$ / { name = sprintf("%s/%02d", block, ++commands); printf "" > (name ".shown"); print substr($0, 3) > (name ".command"); next }
    /^> / { print substr($0, 3) > (name ".command"); next }
    { print > (name ".shown") }' "$page"
}

# Whether the lines of a file are those that the page shows; `...` there stands for any lines.
is_shown() {
    awk '
    NR == FNR { shown[++count] = $0; next }
    { printed[++total] = $0 }
    END {
        at = 1
        for (i = 1; i <= count; i++) {
            if (shown[i] == "...") { gap = 1; continue }
            while (gap && at <= total && printed[at] != shown[i]) at++
            if (at > total || printed[at] != shown[i]) { print "not printed: " shown[i]; exit 1 }
            at++
            gap = 0
        }
        if (!gap && at <= total) { print "not on the page: " printed[at]; exit 1 }
    }' "$1" "$2"
}

# What make install does, but for the proofs: the program that was built is installed as it is.
install_built() {
    mkdir -p shim
    {
        echo '#!/bin/sh'
        # shellcheck disable=SC2016
        echo 'case $1 in install) ;; dist) set -- "$@" PROGRAM="'"$farmdawn"'" ;; esac'
        # shellcheck disable=SC2016
        echo 'case $1 in install) ;; *) exec '"$(command -v make)"' "$@" ;; esac'
        echo "make=$(command -v make)"
        # shellcheck disable=SC2016
        echo '$make -s install-scripts "$2" && install -D -m 755 "'"$farmdawn"'" "${2#PREFIX=}/bin/farmdawn"'
    } >shim/make
    chmod +x shim/make
    PATH=$PWD/shim:$PATH
}

run_block() {
    for command in "$1"/*.command; do
        name=${command%.command}
        # shellcheck source=/dev/null
        . "$command" >"$name.output" 2>&1
        # another home, another version of a package, another number of the command, as many outcomes as there was time for, and a test as long as it took
        sed -i "s|$HOME|/home/ann|g; s/farmdawn-0[.]1[.]0[+][0-9]*-/farmdawn-0.1.0+1234-/; s/from [0-9]* outcomes*/from N outcomes/; s/results-[0-9a-f]\{12\}/results-NUMBER/
            s/what [0-9]* searches/what N searches/; s/([0-9]* s)$/(N s)/" "$name.shown" "$name.output"
        # a test that takes longer than it should may be one that nobody needs any more
        is_shown "$name.shown" "$name.output" || { cat "$name.output" && by_clock expect "what the page shows of '$(cat "$command")'" false; }
    done
}

# The blocks that install and that make the practice repository are always run. Behind them come those of a half of the page that
# need neither ccache nor Slurm, or those of the whole page that need the one that is named.
half=13
is_wanted() {
    case ${1##*/}:$2 in
    01:* | 02:*) ;;
    *:begin) [ "${1##*/}" -le $half ] && ! grep -qw -e ccache -e slurm "$1/needs" ;;
    *:end) [ "${1##*/}" -gt $half ] && ! grep -qw -e ccache -e slurm "$1/needs" ;;
    *) grep -qw "$2" "$1/needs" ;;
    esac
}

run_page() {
    take_apart "$PWD/blocks"
    blocks=$PWD/blocks
    # a newcomer: another home, whose name needs no quotes, and nothing of this checkout on the path
    PATH=${PATH#"$driver:$top/tools:"}
    unset FARMDAWN
    HOME=$(TMPDIR=/tmp mktemp -d) || exit 1
    export HOME
    trap 'rm -rf "$HOME"' EXIT
    install_built
    cd "$top" || exit 1
    for block in "$blocks"/*; do
        if is_wanted "$block" "$1"; then run_block "$block"; fi
    done
    nothing_left
}

needs_page() { has git python3 flock setsid make cc timeout && has_program; }
needs_begin() { needs_page; }
test_begin() { run_page begin; }

needs_end() { needs_page; }
test_end() { run_page end; }

needs_ccache() { has ccache && needs_page; }
test_ccache() { run_page ccache; }

needs_slurm() { needs_page && has_slurm; }
test_slurm() { run_page slurm; }

long='begin end'
run_test "$@"
