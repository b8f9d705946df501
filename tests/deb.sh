#!/bin/sh
# Tests of the package of Debian that `make deb` makes, and of the image that packaging/Containerfile makes of it. Into a small Debian the
# package is installed as the recipe says, and taken away again: FARMDAWN_CHROOT names its folder, or tests/needs has made one.
. "$(dirname "$0")/helpers.sh"

export DPKG_DEB_COMPRESSOR_TYPE=gzip # it takes a tenth of the time
pack() { make -s -C "$top" deb PROGRAM="$farmdawn" DIST="$1"; }

needs_package() { has make dpkg-deb sha256sum xz && has_program; }
test_package() {
    export SOURCE_DATE_EPOCH=1700000000
    expect 'a package' pack "$PWD/first one" >told
    # shellcheck disable=SC2030,SC2031
    (umask 077 && export TZ=Asia/Tokyo LC_ALL=C.UTF-8 && cd / && pack "$OLDPWD/second") >/dev/null || exit 1
    name=farmdawn_$("$top/packaging/version" "$farmdawn")_$(dpkg --print-architecture).deb
    expect 'of its name, which is told' [ "$(cat told)" = "$PWD/first one/$name" ]
    expect 'of the same bytes' cmp "first one/$name" "second/$name"
    expect 'and its sum is right' sh -c 'cd "$0" && sha256sum -c --quiet ./*.sha256' 'first one'
    dpkg-deb -x "second/$name" tree
    expect 'it runs from where it is' [ "$(tree/usr/bin/farmdawn --version)" = "$("$farmdawn" --version)" ]
    expect 'and has the driver' grep -q '^usage: git farmdawn' <<END
$(tree/usr/bin/git-farmdawn -h)
END
    depends=$(dpkg-deb -f "second/$name" Depends)
    for package in git python3 libc6; do row expect "what it needs: $depends" sh -c 'case ", $1" in *", $2 ("*) ;; *) exit 1 ;; esac' sh "$depends" "$package"; done
    pages_are_whole tree/usr/share/doc/farmdawn
}

# Pages for users alone, and each link leads to one of them.
pages_are_whole() {
    listed=$(grep -o '`[A-Z]*[.]md`' "$top/packaging/README.md" | tr -d '`')
    expect 'the first page names those that are there' [ "$(echo "$listed" | sort)" = "$(cd "$1" && ls | grep '[.]md$' | grep -v README)" ]
    for page in USING TRUST SEVERAL CI CONTAINERS; do row expect "the page $page" [ -s "$1/$page.md" ]; done
    for page in CHANGING AUDIT DECISIONS ARCHITECTURE DRIVER; do row expect "no page $page" [ ! -e "$1/$page.md" ]; done
    for page in "$1"/*.md; do
        for link in $(grep -o ']([A-Za-z/-]*[.][a-z]*' "$page" | cut -c3-); do expect "what $page leads to: $link" [ -e "$1/$link" ]; done
    done
}

needs_archive() { has make tar gzip && has_program; }
test_archive() {
    make -s -C "$top" dist PROGRAM="$farmdawn" DIST="$PWD/made" >/dev/null || exit 1
    mkdir unpacked && tar -xzf made/*.tar.gz -C unpacked
    pages_are_whole "$(echo unpacked/*/docs)"
}

needs_wrong_packages() { needs_package; }
test_wrong_packages() {
    for program in "$PWD/nowhere" "$(command -v true)" "$top"; do
        expect "no package of $program" sh -c '! make -s -C "$1" deb PROGRAM="$2" DIST="$3" 2>told' sh "$top" "$program" "$PWD/made"
    done
    expect 'nothing is made' [ ! -e made ]
}

needs_lintian() { has lintian && needs_package; }
test_lintian() {
    pack "$PWD/made" >/dev/null || exit 1
    lintian --allow-root --tag-display-limit 0 made/*.deb >told 2>&1
    expect "lintian has nothing to say: $(cat told)" [ ! -s told ]
}

debian=${FARMDAWN_CHROOT:-$needs/debian}
in_chroot() { chroot "$debian" env -i PATH=/usr/sbin:/usr/bin:/sbin:/bin HOME=/root LC_ALL=C.UTF-8 DEBIAN_FRONTEND=noninteractive sh -euc "$1"; }

# What stands in the chroot, but for what a search there leaves, and the lists and logs of the system.
listed() { (cd "$debian" && find usr etc -name __pycache__ -prune -o -print | sort); }

needs_chroot() {
    needs_package && has chroot flock || return 1
    missing='root, who may enter another Debian'
    [ "$(id -u)" -eq 0 ] || return 1
    missing='a small Debian (FARMDAWN_CHROOT, or tests/needs)'
    [ -d "$debian/etc" ]
}
test_chroot() {
    exec 8>"$debian/.in-use" && flock -x 8 || exit 1 # another run of these tests may be in it
    pack "$PWD/made" >/dev/null || exit 1
    cp made/*.deb "$debian/tmp/"
    cp "$top/docs/practice.sh" "$debian/tmp/"
    # the recipe of the image, line by line
    sed -n '/^RUN /,$ { s/^RUN //; p }' "$top/packaging/Containerfile" >recipe
    in_chroot 'dpkg --configure -a' >/dev/null 2>&1 # a run that was ended may have left packages half done
    in_chroot "$(cat recipe)" >installed 2>&1 || expect "it is installed by the recipe: $(tail -n 5 installed)" false
    # shellcheck disable=SC2016 # the words are those of the inner shell
    in_chroot 'rm -rf /tmp/practice && sh /tmp/practice.sh /tmp/practice && cd /tmp/practice &&
        git farmdawn --report /tmp/report main v1.0 -- sh -c "test \$(ls notes | wc -l) -lt 47" >/tmp/log 2>/tmp/told && tail -n 1 /tmp/log' >answer 2>&1
    expect "a search finds its commit: $(cat answer)" grep -q '^a3fe9beb8f1b874710609aad4af1ea5f0fac0123 is the first bad commit$' answer
    in_chroot 'apt-get purge -y farmdawn && rm -rf /tmp/practice /tmp/practice.sh /tmp/report /tmp/log /tmp/told' >removed 2>&1 ||
        expect "it is taken away: $(tail -n 5 removed)" false
    expect "and nothing of it is left: $(listed | grep -i farmdawn)" sh -c '! grep -qi farmdawn' <<END
$(listed)
$(find "$debian/usr/lib" "$debian/var/lib/dpkg/info" -iname '*farmdawn*')
END
}

needs_lint() { has shellcheck; }
test_lint() {
    cd "$top/packaging" || exit 1
    expect 'shellcheck' shellcheck -o all make-deb
}

run_test "$@"
