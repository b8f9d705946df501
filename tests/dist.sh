#!/bin/sh
# Tests of the package that `make dist` makes, and of the install.sh in it.
. "$(dirname "$0")/helpers.sh"

# What the scripts need, and install.sh; a machine that has just these, but for the one that is named.
needed='awk cat chmod cmp cp cut date dirname env find flock getconf git grep head id kill ln ls mkdir mkfifo mktemp mv python3 readlink
    rm rmdir sed setpriv setsid sh sha256sum sleep sort tail test timeout touch tr true wc'
machine_without() {
    rm -rf machine && mkdir machine || exit 1
    for name in $needed; do
        found=$(command -v "$name") || exit 1
        case $found in /*) ;; *) found=/usr/bin/$name ;; esac
        [ "$name" = "$1" ] || ln -s "$found" "machine/$name" || exit 1
    done
}

pack() { make -s -C "$top" dist PROGRAM="$farmdawn" DIST="$1"; }

# The package, unpacked in the folder `unpacked`, and its only archive in `archive`.
unpack() {
    pack "$PWD/made" >told || exit 1
    archive=$(echo made/*.tar.gz)
    mkdir unpacked && tar -xzf "$archive" -C unpacked && set -- unpacked/* || exit 1
    expect 'one folder' [ $# -eq 1 ]
    mv "$1"/* unpacked
    rmdir "$1"
}

needs_archive() { has make tar gzip sha256sum && has_program; }
test_archive() {
    export SOURCE_DATE_EPOCH=1700000000
    expect 'a package' pack "$PWD/first one" >told
    # shellcheck disable=SC2030,SC2031
    (umask 077 && export TZ=Asia/Tokyo LC_ALL=C.UTF-8 && cd / && pack "$OLDPWD/second") >/dev/null || exit 1
    name=farmdawn-$("$top/packaging/version" "$farmdawn")-$(uname -m)-linux
    expect 'of its name' [ "$(cd 'first one' && echo ./*)" = "./$name.tar.gz ./$name.tar.gz.sha256" ]
    expect 'which is told' [ "$(cat told)" = "$PWD/first one/$name.tar.gz" ]
    expect 'of the same bytes' cmp "first one/$name.tar.gz" "second/$name.tar.gz"
    expect 'and the same sum' cmp "first one/$name.tar.gz.sha256" "second/$name.tar.gz.sha256"
    expect 'which is right' sh -c 'cd "$0" && sha256sum -c --quiet ./*.sha256' 'first one'
    SOURCE_DATE_EPOCH=1700000001 pack "$PWD/third" >/dev/null || exit 1
    expect 'another time is another package' sh -c '! cmp -s "$1" "$2"' sh "first one/$name.tar.gz" "third/$name.tar.gz"
    TZ=UTC tar --numeric-owner -tvzf "first one/$name.tar.gz" >listed || exit 1
    expect 'one owner, one time, two modes' [ "$(awk '{ print substr($1, 2), $2, $4, $5 }' listed | sort -u)" = 'rw-r--r-- 0/0 2023-11-14 22:13
rwxr-xr-x 0/0 2023-11-14 22:13' ]
    expect 'sorted' sh -c 'sed "s/.*:.. //" listed | LC_ALL=C sort -c'
    expect 'nothing is compiled' sh -c '! grep -q pycache listed'
    for file in README.md LICENSE install.sh docs/USING.md files/bin/farmdawn files/bin/git-farmdawn files/lib/farmdawn/git_farmdawn/main.py \
        files/share/man/man1/farmdawn.1; do
        row expect 'all is in it' grep -q " $name/$file\$" listed
    done
}

needs_wrong_packages() { needs_archive; }
test_wrong_packages() {
    for program in "$PWD/nowhere" "$(command -v true)" "$top"; do
        expect "no package of $program" sh -c '! make -s -C "$1" dist PROGRAM="$2" DIST="$3" 2>told' sh "$top" "$program" "$PWD/made"
    done
    expect 'no time' sh -c '! SOURCE_DATE_EPOCH=now make -s -C "$1" dist PROGRAM="$2" DIST="$3" 2>told' sh "$top" "$farmdawn" "$PWD/made"
    expect 'nothing is made' [ ! -e made ]
}

needs_installed() { needs_archive && has git python3; }
test_installed() {
    unpack
    mkdir -p 'a b/bin' && echo mine >'a b/bin/mine' && find 'a b' | sort >before
    expect 'it is installed' sh unpacked/install.sh 'a b'
    for file in $(cd unpacked/files && find . -type f); do
        expect 'each file is there' cmp "unpacked/files/$file" "a b/$file"
    done
    expect 'and modules are compiled' [ "$(find 'a b/lib' -name '*.pyc' | wc -l)" -eq "$(find 'a b/lib' -name '*.py' | wc -l)" ]
    for folder in '' line/; do touch "a b/lib/farmdawn/git_farmdawn/${folder}__pycache__/old.cpython-38.pyc"; done
    expect 'again' sh unpacked/install.sh "$PWD/a b/"
    for folder in '' line/; do
        row expect 'and nothing old is compiled' [ ! -e "a b/lib/farmdawn/git_farmdawn/${folder}__pycache__/old.cpython-38.pyc" ]
    done
    (
        PATH=$PWD/a\ b/bin:${PATH#"$driver:$top/tools:"}
        unset FARMDAWN
        expect 'it runs' [ "$(farmdawn --version)" = "$("$farmdawn" --version)" ]
        make_line 12 7
        expect 'and finds a commit' [ "$(git farmdawn main main~11 -- test ! -e bug 2>told | tail -n 1)" = "$(git rev-parse main~4) is the first bad commit" ]
    ) || exit 1
    expect 'it is taken away' sh unpacked/install.sh --uninstall 'a b'
    find 'a b' | sort >after
    expect 'and what was there before is left' cmp before after
    expect 'once' sh -c '! sh unpacked/install.sh --uninstall "a b" 2>told'
    expect 'which is told' grep -q 'has nothing that this script installed' told
    expect 'into a folder that is not there' sh unpacked/install.sh new
    expect 'which is gone then' sh unpacked/install.sh --uninstall new
    expect 'with all that was in it' [ ! -e new ]
}

needs_others() { needs_archive; }
test_others() {
    unpack
    mkdir -p prefix/bin && echo mine >prefix/bin/farmdawn
    expect 'a file of others stops it' sh -c '! sh unpacked/install.sh prefix 2>told'
    expect 'and is named' grep -q "prefix/bin/farmdawn is there already" told
    expect 'it is left' [ "$(cat prefix/bin/farmdawn)" = mine ]
    expect 'nothing else is there' [ "$(find prefix -type f)" = prefix/bin/farmdawn ]
    rm prefix/bin/farmdawn
    echo old >unpacked/files/bin/of-before
    expect 'a version' sh unpacked/install.sh prefix 2>told
    cp prefix/share/farmdawn/installed installed
    rm unpacked/files/bin/of-before && echo '# newer' >>unpacked/files/bin/farmdawn-ssh
    expect 'a newer one' sh unpacked/install.sh prefix 2>told
    expect 'has its files alone' [ ! -e prefix/bin/of-before ]
    expect 'and new ones' cmp unpacked/files/bin/farmdawn-ssh prefix/bin/farmdawn-ssh
    cat prefix/share/farmdawn/installed installed >both && mv both prefix/share/farmdawn/installed
    cp "$top/tools/farmdawn-ssh" prefix/bin
    expect 'again, where one was ended in the middle' sh unpacked/install.sh prefix 2>told
    expect 'with one sum of each' [ "$(grep -c farmdawn-ssh$ prefix/share/farmdawn/installed)" -eq 1 ]
    echo '# mine' >>prefix/bin/git-farmdawn
    expect 'one that was changed' sh -c '! sh unpacked/install.sh --uninstall prefix 2>told'
    expect 'is left' [ "$(find prefix -type f)" = prefix/bin/git-farmdawn ]
    expect 'and named' grep -q 'prefix/bin/git-farmdawn is not as it was installed, and is left' told
    mkdir -p prefix/share/farmdawn && echo "file $(echo mine | sha256sum | cut -c1-64) ../mine" >prefix/share/farmdawn/installed && echo mine >mine
    expect 'a note that leads elsewhere' sh -c '! sh unpacked/install.sh --uninstall prefix 2>told'
    expect 'removes nothing' [ -e mine ]
    for words in '' '--nothing' '--uninstall' 'nowhere/at/all' 'prefix two'; do
        # shellcheck disable=SC2086
        row expect "a fault: $words" sh -c '! sh unpacked/install.sh "$@" 2>told' sh $words
        row expect 'in a line' [ "$(wc -l <told)" -eq 1 ]
    done
}

needs_machine() { needs_archive && has git flock setsid setpriv python3; }
test_machine() {
    unpack
    for tool in flock git setsid awk setpriv; do
        machine_without "$tool"
        PATH=$PWD/machine sh unpacked/install.sh prefix >out 2>told
        row expect "it is named: $tool, in $(cat told)" grep -q "$tool.* is not here: " told
        [ ! -e prefix ] || expect 'taken away' sh unpacked/install.sh --uninstall prefix
    done
    # the Python of the system, which needs no path, and the one that is named
    unset FARMDAWN_PYTHON
    sed "s|/usr/bin/python3|$PWD/nowhere/python3|" unpacked/install.sh >unpacked/other.sh
    machine_without python3
    PATH=$PWD/machine sh unpacked/other.sh prefix >out 2>told
    expect 'Python is named' grep -q 'a Python from 3.8 on is not here: git farmdawn needs it' told
    expect 'and nothing is compiled' [ -z "$(find prefix -name '*.pyc')" ]
    expect 'taken away' sh unpacked/install.sh --uninstall prefix
    machine_without nothing
    PATH=$PWD/machine:$PWD/prefix/bin sh unpacked/install.sh prefix >out 2>told
    expect 'nothing else is' [ "$(grep -cv 's[rs][uh]n* is not here' told)" -eq 0 ]
    printf '#!/bin/sh\necho "no such library" >&2\nexit 127\n' >unpacked/files/bin/farmdawn
    expect 'a program that does not run here' sh -c '! sh unpacked/install.sh other 2>told'
    expect 'is told' grep -q 'does not run here; nothing was installed: no such library' told
    expect 'and nothing is installed' [ ! -e other ]
}

needs_lint() { has shellcheck; }
test_lint() {
    cd "$top/packaging" || exit 1
    for script in make-dist install.sh; do row expect 'shellcheck' shellcheck -o all "$script"; done
}

run_test "$@"
