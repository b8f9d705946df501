#!/bin/sh
# git in git's own tests: it does what git does, and keeps of each `git bisect` and `git rev-list --bisect` what it was given,
# what it said and what it left, in a folder of its own below KEPT. ITSELF is the program, and TOLD the file with the
# output of the tests. tests/git_tests.py puts this in the place of git.
case "${1-} ${2-}" in
'--no-replace-objects bisect')
    export GIT_NO_REPLACE_OBJECTS=1
    shift
    ;;
esac
case "${1-} $*" in
'bisect bisect reset'* | 'bisect bisect log'* | 'bisect bisect terms'* | 'bisect bisect visualize'*) exec "$ITSELF" "$@" ;;
'bisect '* | 'rev-list '*' --bisect'*) ;;
*) exec "$ITSELF" "$@" ;;
esac
# shellcheck disable=SC2012,SC2153 # their names are numbers; the environment has KEPT
kept=$KEPT/$(ls "$KEPT" | wc -l)
mkdir "$kept" || exit 1
folder=$("$ITSELF" rev-parse --absolute-git-dir)
grep -a '^expecting success of ' "$TOLD" | tail -n 1 >"$kept/test"
printf '%s\0' "$@" >"$kept/words"
"$ITSELF" rev-parse -q --verify HEAD >"$kept/head"
"$ITSELF" rev-parse -q --verify BISECT_HEAD >"$kept/bisect-head"
cp "$folder/BISECT_LOG" "$kept/log-before" 2>/dev/null
case "$1 ${2-}" in
'bisect replay') cp "$3" "$kept/file" ;;
'bisect run') cp -a . "$kept/tree" ;;
esac

"$ITSELF" "$@" >"$kept/output" 2>"$kept/error"
status=$?
cat "$kept/output"
cat "$kept/error" >&2

echo "$status" >"$kept/status"
for name in LOG NAMES; do cp "$folder/BISECT_$name" "$kept/$name" 2>/dev/null; done
"$ITSELF" for-each-ref --format='%(objectname) %(refname:lstrip=2)' 'refs/bisect/*' >"$kept/refs"
[ "$1" = bisect ] || "$ITSELF" for-each-ref --format='%(objectname) %(refname:lstrip=2)' refs/tags >"$kept/names"
"$ITSELF" rev-list --all --parents >"$kept/parents" 2>/dev/null
# some tests lose a tree of branches and tags that are named broken
"$ITSELF" fast-export --exclude='*broken*' --exclude='*BROKEN*' --all >"$kept/stream" 2>/dev/null || rm "$kept/stream"
exit "$status"
