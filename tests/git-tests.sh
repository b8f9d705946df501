#!/bin/sh
# git's own tests of `git bisect`, each situation of which is given to farmdawn, too (tests/git_tests.py). They want git's
# sources, of the version that is installed: GIT_SOURCES names their folder, or they are where tests/needs has put them.
. "$(dirname "$0")/helpers.sh"

# The sources are at hand, and those of the git that is.
sources=${GIT_SOURCES:-$needs/git}
has_sources() {
    version=$(git --version | sed 's/^git version //')
    missing="the sources of git $version (GIT_SOURCES, or tests/needs)"
    [ -r "$sources/t/test-lib.sh" ] && grep -q "v$version\$" "$sources/GIT-VERSION-GEN"
}

# Each comparison agrees but for the differences of the table.
compare() { FARMDAWN=$farmdawn expect "as git ($1)" python3 "$top/tests/git_tests.py" "$sources" "$1"; }

needs_porcelain() { has python3 git && has_program && has_sources; }
test_porcelain() { compare t6030-bisect-porcelain; }
needs_choice() { needs_porcelain; }
test_choice() { compare t6002-rev-list-bisect; }
needs_replaced() { needs_porcelain; }
test_replaced() { compare t6050-replace; }

run_test "$@"
