#!/bin/sh
# Runs the commands of docs/SERVE.md, taken from the page itself, over a small repository of each system that is at hand:
# eight commits of a file with their number, the fifth of which is the first bad one.
. "$(dirname "$0")/helpers.sh"
FARMDAWN=$farmdawn
export FARMDAWN

page=$top/docs/SERVE.md

# The commands of the block behind a comment.
block() {
    awk -v comment="<!-- $1 -->" '
    $0 == comment { due = 1; next }
    due && /^```console$/ { inside = 1; next }
    /^```$/ { if (inside) exit; due = 0 }
    inside && sub(/^\$ /, "")' "$page"
}

make_hg() {
    hg init hello
    for number in 1 2 3 4 5 6 7 8; do echo $number >hello/number && hg -R hello commit -q -A -m "number $number" -u 'Ann <ann@example.org>'; done
}

make_brz() {
    brz init -q hello
    for number in 1 2 3 4 5 6 7 8; do (cd hello && echo $number >number && brz add -q number && BRZ_EMAIL='Ann <ann@example.org>' brz commit -q -m "number $number"); done
}

make_fossil() {
    export USER=ann
    fossil init hello.fossil >/dev/null && mkdir hello && cd hello && fossil open -f ../hello.fossil >/dev/null
    for number in 1 2 3 4 5 6 7 8; do echo $number >number && fossil addremove >/dev/null && fossil commit --allow-older --no-warnings -m "number $number" >/dev/null || break; sleep 1; done
    cd ..
}

make_darcs() {
    darcs init -q hello >/dev/null
    for number in 1 2 3 4 5 6 7 8; do (cd hello && echo $number >number && { [ $number -gt 1 ] || darcs add -q number; } && darcs record --ignore-times -q -a -A ann@example.org -m "number $number" >/dev/null); done
}

make_cvs() {
    mkdir hello.cvs && export CVSROOT="$PWD/hello.cvs" && cvs -Q init && mkdir hello.cvs/hello && cvs -Q checkout hello
    for number in 1 2 3 4 5 6 7 8; do (cd hello && echo $number >number && { [ $number -gt 1 ] || cvs -Q add number; } && cvs -Q commit -m "number $number" >/dev/null); sleep 1; done
}

make_svn() {
    svnadmin create hello.svn && svn checkout -q "file://$PWD/hello.svn" hello
    for number in 1 2 3 4 5 6 7 8; do (cd hello && echo $number >number && { [ $number -gt 1 ] || svn add -q number; } && svn commit -q -m "number $number"); done
}

# A repository of the system goes through git, and both ways out name the fifth commit.
through() {
    HOME=$PWD
    export HOME
    "make_$1" >made 2>&1
    expect "a repository of $1 ($(tail -n 3 made))" [ $? -eq 0 ]
    [ "$1" = svn ] || git init -q --bare through.git
    block "needs: $2" >commands
    expect 'the page has its commands' [ -s commands ]
    # shellcheck source=/dev/null
    . ./commands >filled 2>&1
    expect "the stream is taken ($(tail -n 3 filled))" [ $? -eq 0 ]
    mkdir bin && ln -s "$farmdawn" bin/farmdawn && PATH=$PWD/bin:$PATH
    for end in branch clone checkout; do
        block "end: $end" >commands
        row expect "the page has $end" [ -s commands ]
        # shellcheck source=/dev/null
        . ./commands >log 2>told
        [ "$end" = branch ] || expect "the fifth commit by $end" grep -q '^# first bad commit: \[[0-9a-f]*\] number 5' log
    done
}

needs_hg() { has_program && has git hg; }
test_hg() { through hg hg; }
needs_brz() { has_program && has git brz && { missing="the fastimport of brz" && /usr/bin/python3 -c "import fastimport" 2>/dev/null; }; }
# brz may have a Python of its own, which takes its modules from where the python3 on the path is: that of the system
test_brz() { PATH=/usr/bin:$PATH && through brz brz; }
needs_fossil() { has_program && has git fossil; }
test_fossil() { through fossil fossil; }
needs_darcs() { has_program && has git darcs; }
test_darcs() { through darcs darcs; }
needs_cvs() { has_program && has git cvs cvs-fast-export; }
test_cvs() { through cvs 'cvs cvs-fast-export'; }
needs_svn() { has_program && has git svn svnadmin && missing='git svn' && git svn --version >/dev/null 2>&1; }
test_svn() { through svn 'svn svnadmin'; }

run_test "$@"
