#!/bin/sh
# Installs the farmdawn of the package that this file came with, and takes it away again. See usage() below.
#
# What was installed is noted in PREFIX/share/farmdawn/installed: a line `file SUM PATH` for each file, and a line
# `folder - PATH` for each folder that was not there before.
#
# shellcheck disable=SC2250 # braces stand only where a name would go on
# shellcheck disable=SC2312 # the status of a pipe is that of its last command, which is looked at
# shellcheck disable=SC2249 # a case without * lets the rest be
# shellcheck disable=SC2310 # no function counts on set -e
# shellcheck disable=SC2015 # what stands behind && and || ends the script, or may come after either
set -u
export LC_ALL=C
umask 022
me=install.sh

usage() {
    cat <<'TEXT'
usage: install.sh PREFIX
       install.sh --uninstall PREFIX

Installs farmdawn into the folder PREFIX, as /usr/local or ~/.local: programs in bin, the modules of git farmdawn in lib,
manual pages and completions in share. What the programs need and this machine does not have is told. Files of others are
never overwritten.
--uninstall removes what was installed there and is as it was, the folders that were made for it, and nothing else.
TEXT
}

say() { printf '%s: %s\n' "$me" "$*" >&2; }

die() {
    say "$*"
    exit 1
}

is_here() { command -v "$1" >/dev/null 2>&1; }

sum_of() { sha256sum <"$1" | cut -c1-64; }

is_there() { [ -e "$1" ] || [ -L "$1" ]; }

is_file() { [ -f "$1" ] && [ ! -L "$1" ]; }

# Whether a file is as this script installed it. Where an install was ended in the middle, two sums are noted of a file.
is_noted() { is_file "$prefix/$1" && grep -qxF "file $(sum_of "$prefix/$1") $1" "$record" 2>/dev/null; }

# The files of the package, and the folders that they stand in, the outer ones first.
list_files() { (cd "$here/files" && find . -type f) | sed 's|^\./||' | sort; }
list_folders() {
    { list_files && echo share/farmdawn/installed; } | awk '{
        print "."
        for (at = 1; at <= length($0); at++) if (substr($0, at, 1) == "/") print substr($0, 1, at - 1)
    }' | sort -u
}

check_record() {
    while read -r kind sum path; do
        case $kind:$sum:/$path/ in
        *//* | */../*) die "$record is not of this script; nothing was done" ;;
        folder:-:* | file:????????????????????????????????????????????????????????????????:*) ;;
        *) die "$record is not of this script; nothing was done" ;;
        esac
    done <"$record"
}

# Nothing of others is overwritten: a file that is there was installed by this script, or is the same.
check_targets() {
    while read -r path; do
        is_there "$prefix/$path" || continue
        is_noted "$path" || { is_file "$prefix/$path" && cmp -s "$here/files/$path" "$prefix/$path"; } ||
            die "$prefix/$path is there already, and was not brought by this script; nothing was installed"
    done <"$room/files"
}

# The new note: what an earlier one has of other files stays until they are removed.
write_record() {
    {
        while read -r path; do printf 'file %s %s\n' "$(sum_of "$here/files/$path")" "$path"; done <"$room/files"
        [ ! -f "$record" ] || cat "$record"
        while read -r path; do [ -d "$prefix/$path" ] || printf 'folder - %s\n' "$path"; done <"$room/folders"
    } | awk '!($0 in seen) { seen[$0]; print }' >"$room/record"
}

# A folder that is noted, by its name; the one that all is installed into is noted as a point.
folder_of() {
    case $1 in
    .) printf '%s\n' "$prefix" ;;
    *) printf '%s\n' "$prefix/$1" ;;
    esac
}

note_record() {
    cp "$room/record" "$record.new" && mv -f "$record.new" "$record" || die "$record cannot be written"
}

copy_file() {
    mode=644
    case $1 in bin/*) mode=755 ;; esac
    cp "$here/files/$1" "$prefix/$1.new.$$" && chmod "$mode" "$prefix/$1.new.$$" && mv -f "$prefix/$1.new.$$" "$prefix/$1" && return
    rm -f "$prefix/$1.new.$$"
    die "$prefix/$1 cannot be written; $me --uninstall removes what is there so far"
}

# What an earlier version brought and this one does not have.
remove_old() {
    while read -r kind sum path; do
        [ "$kind" = file ] && ! grep -qxF "$path" "$room/files" || continue
        ! is_noted "$path" || rm -f "$prefix/$path"
    done <"$record"
    awk 'NR == FNR { now[$0]; next } $1 == "folder" { print } $3 in now { print; delete now[$3] }' "$room/files" "$record" >"$room/record"
    note_record
}

# The Python that bin/git-farmdawn will find.
find_python() {
    for python in "${FARMDAWN_PYTHON-}" /usr/bin/python3 python3 python3.13 python3.12 python3.11 python3.10 python3.9 python3.8; do
        python=$(command -v "$python") && "$python" -I -S -c 'import sys; sys.exit(sys.version_info < (3, 8))' 2>/dev/null && return
    done
    return 1
}

# What is compiled of the modules is of this machine, and not noted.
modules=lib/farmdawn/git_farmdawn
remove_compiled() {
    for folder in "$prefix/lib" "$prefix/lib/farmdawn" "$prefix/$modules"; do
        [ -d "$folder" ] && [ ! -L "$folder" ] || return 0
    done
    for folder in "$prefix/$modules" "$prefix/$modules"/*/; do
        folder=${folder%/}
        [ -d "$folder/__pycache__" ] && [ ! -L "$folder" ] && [ ! -L "$folder/__pycache__" ] || continue
        rm -f "$folder/__pycache__"/*.pyc
        rmdir "$folder/__pycache__" 2>/dev/null
    done
}

compile_modules() {
    ! find_python || "$python" -I -m compileall -q "$prefix/$modules" ||
        say "$python cannot compile $prefix/$modules: each start of git farmdawn takes a tenth of a second more"
}

tell_missing() {
    is_here git || say 'git is not here: git farmdawn needs it'
    find_python || say 'a Python from 3.8 on is not here: git farmdawn needs it'
    for tool in flock setsid; do is_here "$tool" || say "$tool is not here: farmdawn-ssh needs it"; done
    is_here ssh || say "ssh is not here: farmdawn-ssh needs it"
    is_here srun || say "srun is not here: farmdawn-srun needs it"
    setpriv --pdeathsig TERM true 2>/dev/null || say "a setpriv with --pdeathsig is not here: tests of farmdawn run on where it is killed"
    ! is_here git || git version | awk '{ split($3, part, "."); exit part[1] < 2 || part[1] == 2 && part[2] < 31 }' ||
        say "git from 2.31 on is needed, and this is $(git version)"
    case :$PATH: in *:"$prefix/bin":*) ;; *) say "$prefix/bin is not on the path" ;; esac
}

check_program() {
    told=$(cd "$here/files/bin" && ./farmdawn --version 2>&1) && return # its words, and its name, have to be UTF-8
    die "the program of this package does not run here; nothing was installed: $told"
}

install_package() {
    check_program
    [ -d "$prefix" ] || [ -d "$(dirname -- "$prefix")" ] || die "there is no folder $(dirname -- "$prefix")"
    [ ! -f "$record" ] || check_record
    room=$(mktemp -d) || exit
    trap 'rm -rf "$room"' EXIT
    list_files >"$room/files" && list_folders >"$room/folders" || exit
    check_targets
    write_record
    while read -r path; do
        folder=$(folder_of "$path")
        [ -d "$folder" ] || mkdir "$folder" || die "$folder cannot be made"
    done <"$room/folders"
    note_record
    remove_compiled
    while read -r path; do copy_file "$path"; done <"$room/files"
    remove_old
    compile_modules
    tell_missing
}

uninstall_package() {
    [ -f "$record" ] || die "$prefix has nothing that this script installed: there is no $record"
    check_record
    left=0
    while read -r kind sum path; do
        [ "$kind" = file ] && is_there "$prefix/$path" || continue
        if is_noted "$path"; then
            rm -f "$prefix/$path" || exit
        else
            say "$prefix/$path is not as it was installed, and is left"
            left=1
        fi
    done <"$record"
    remove_compiled
    folders=$(sed -n 's/^folder - //p' "$record" | sort -r)
    rm -f "$record" || exit
    printf '%s\n' "$folders" | while read -r path; do
        [ -z "$path" ] || rmdir "$(folder_of "$path")" 2>/dev/null
    done
    exit "$left"
}

case $0 in
*/*) here=$(cd "${0%/*}" && pwd -P) ;;
*) here=$PWD ;;
esac
action=install_package
case ${1-} in
-h | --help)
    usage
    exit
    ;;
--uninstall)
    action=uninstall_package
    shift
    ;;
-*) die "unknown option $1; see $me --help" ;;
esac
[ $# -eq 1 ] && [ -n "$1" ] || die "the folder to install into is wanted, as /usr/local; see $me --help"
for tool in awk cmp cp cut find grep mktemp sed sha256sum sort; do is_here "$tool" || die "$tool is not here: this script needs it"; done
case $1 in /*) prefix=$1 ;; *) prefix=$PWD/$1 ;; esac
while [ "$prefix" != "${prefix%/}" ]; do prefix=${prefix%/}; done
record=$prefix/share/farmdawn/installed
"$action"
