#!/bin/sh
# Tests of the wheel that `make wheel` makes, in an environment of Python's own; nothing is fetched.
. "$(dirname "$0")/helpers.sh"

pack() { make -s -C "$top" wheel PROGRAM="$farmdawn" DIST="$1"; }

needs_wheel() { has make python3 sha256sum && has_program; }
test_wheel() {
    export SOURCE_DATE_EPOCH=1700000000
    expect 'a wheel' pack "$PWD/first one" >told
    # shellcheck disable=SC2030,SC2031
    (umask 077 && export TZ=Asia/Tokyo LC_ALL=C.UTF-8 && cd / && pack "$OLDPWD/second") >/dev/null || exit 1
    made=$(cat told)
    expect "of its name: $made" sh -c 'case $1 in "$2"-py3-none-manylinux_2_[0-9]*_"$(uname -m)".whl) ;; *) exit 1 ;; esac' sh \
        "$made" "$PWD/first one/farmdawn-$("$top/packaging/version" "$farmdawn")"
    expect 'of the same bytes' cmp "$made" "second/${made##*/}"
    expect 'and its sum is right' sh -c 'cd "$0" && sha256sum -c --quiet ./*.sha256' 'first one'
    expect 'its own list is right' python3 - "$made" <<'END'
import base64, csv, hashlib, sys, zipfile
with zipfile.ZipFile(sys.argv[1]) as wheel:
    names = wheel.namelist()
    listed = {row[0]: row[1:] for row in csv.reader(wheel.read(names[-1]).decode().splitlines())}
    sums = {name: base64.urlsafe_b64encode(hashlib.sha256(wheel.read(name)).digest()).decode().rstrip("=") for name in names[:-1]}
    assert names[-1].endswith("/RECORD") and list(listed) == names, names
    assert all(listed[name] == ["sha256=" + sums[name], str(len(wheel.read(name)))] for name in sums)
    tag = wheel.read(next(name for name in names if name.endswith("/WHEEL"))).decode().split("Tag: ")[1].strip()
    assert sys.argv[1].endswith("-%s.whl" % tag), tag
END
}

# The newest version of the C library's symbols, as binutils reads them.
needs_library() { has readelf && needs_wheel; }
test_library() {
    made=$(pack "$PWD/made") || exit 1
    due=$(readelf -V "$farmdawn" | grep -o 'GLIBC_[0-9.]*' | sort -V | tail -n 1)
    expect "it says that it needs $due" sh -c 'case $0 in *-manylinux_"$1"_x86_64.whl | *-manylinux_"$1"_aarch64.whl) ;; *) exit 1 ;; esac' "$made" "$(echo "${due#GLIBC_}" | tr . _)"
}

needs_wrong_wheels() { needs_wheel; }
test_wrong_wheels() {
    for program in "$PWD/nowhere" "$(command -v true)" "$top"; do
        expect "no wheel of $program" sh -c '! make -s -C "$1" wheel PROGRAM="$2" DIST="$3" 2>told' sh "$top" "$program" "$PWD/made"
    done
    expect 'nothing is made' [ ! -e made ]
}

# A Python that can make an environment with pip: the one that git farmdawn takes first, or that on the path.
has_venv() {
    missing='a Python with venv'
    for python in /usr/bin/python3 python3; do "$python" -c 'import ensurepip, venv' && return; done
    return 1
}

needs_installed() { needs_wheel && has git && has_venv; }
test_installed() {
    made=$(pack "$PWD/made") || exit 1
    has_venv && "$python" -m venv "$PWD/of ann" || exit 1
    (cd 'of ann' && find . -type f ! -name '*.pyc' | sort) >before
    PIP_NO_INDEX=1 PIP_DISABLE_PIP_VERSION_CHECK=1
    export PIP_NO_INDEX PIP_DISABLE_PIP_VERSION_CHECK
    expect 'pip installs it' 'of ann/bin/python' -m pip install -q "$made"
    make_line 12 7
    # nothing of this checkout, and nothing but the name of the program: another one may stand on the path
    PATH=${PATH#"$driver:$top/tools:"} installed="$OLDPWD/of ann"
    unset FARMDAWN
    mkdir ../others && printf '#!/bin/sh\nexit 3\n' >../others/farmdawn && chmod +x ../others/farmdawn
    PATH=$(cd ../others && pwd):$PATH "$installed/bin/git-farmdawn" main main~11 -- sh -c 'test ! -e bug' >log 2>told
    expect "a search by its name: $(cat told)" [ "$? $(tail -n 1 log)" = "0 $(first_bad main~4)" ]
    PATH=$installed/bin:$PATH
    expect 'and by git' [ "$(answer_of git farmdawn --fresh --certificate ../answer main main~11 -- sh -c 'test ! -e bug')" = "$(first_bad main~4)" ]
    expect 'whose certificate holds' git farmdawn --check ../answer
    for name in farmdawn git-farmdawn farmdawn-srun farmdawn-ssh; do
        row expect "the page of $name" [ -s "$installed/share/man/man1/$name.1" ]
    done
    expect 'pip takes it away' "$installed/bin/python" -m pip uninstall -q -y farmdawn
    cd ..
    expect "nothing of it is left: $(cd 'of ann' && find . -type f ! -name '*.pyc' | sort | comm -13 ../before -)" \
        [ "$(cd 'of ann' && find . -type f ! -name '*.pyc' | sort)" = "$(cat before)" ]
}

needs_pipx() { has pipx git && needs_wheel; }
test_pipx() {
    made=$(pack "$PWD/made") || exit 1
    PIPX_HOME=$PWD/pipx PIPX_BIN_DIR=$PWD/bin PIP_NO_INDEX=1
    export PIPX_HOME PIPX_BIN_DIR PIP_NO_INDEX
    pipx install "$made" >out 2>&1 || expect "pipx installs it: $(cat out)" false
    unset FARMDAWN
    PATH=$PWD/bin:${PATH#"$driver:$top/tools:"}
    make_line 12 7
    expect 'a search' [ "$(answer_of git farmdawn main main~11 -- sh -c 'test ! -e bug')" = "$(first_bad main~4)" ]
}

run_test "$@"
