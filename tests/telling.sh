#!/bin/sh
# Tests of what git farmdawn tells on the way, and of searches by path.
. "$(dirname "$0")/helpers.sh"
FARMDAWN=$farmdawn
export FARMDAWN

needs_all() { has git python3 && has_program; }
command='test ! -e bug'

# Commits that change some paths alone, beside git bisect with the same paths; tests/paths.py has random ones.
needs_paths() { needs_all; }
test_paths() {
    make_line 2 9
    mkdir -p in/side || exit 1
    for number in 1 2 3 4 5 6 7 8 9; do
        echo $number >content
        [ $((number % 2)) = 0 ] || echo $number >in/odd
        [ $((number % 3)) != 0 ] || echo $number >in/side/third
        [ $number -lt 5 ] || echo bug >bug
        git add -A && git commit -q -m "then $number" || exit 1
    done
    ask() { answer_of git farmdawn --workers 2 "$@" main main~9 -- sh -c "cd \"\$(git rev-parse --show-toplevel)\" && $command"; }
    expect 'a file' [ "$(ask --path in/odd)" = "$(first_bad main~4)" ]
    expect 'as git bisect run has it' [ "$(first_bad "$(git_answer main main~9 -- in/odd)")" = "$(first_bad main~4)" ]
    expect 'a folder of another' [ "$(ask --path in/side/)" = "$(first_bad main~3)" ]
    expect 'no other commit is tested' [ "$(grep -c ': testing' told)" -le 3 ]
    expect 'both' [ "$(ask --path in/side --path in/odd)" = "$(first_bad main~4)" ]
    cd in/side || exit 1
    expect 'from a folder' [ "$(ask --path third)" = "$(first_bad main~3)" ]
    expect 'beside it' [ "$(ask --path ../odd)" = "$(first_bad main~4)" ]
    expect 'by a full name' [ "$(ask --path "$PWD/../side")" = "$(first_bad main~3)" ]
    expect 'itself' [ "$(ask --path .)" = "$(first_bad main~3)" ]
    for way in '--path ../odd --path .' '--path third' ''; do
        # shellcheck disable=SC2086
        git farmdawn --workers 1 --log-dir "../../../logs/$(echo "$way" | tr / _)" $way main main~9 -- sh -c 'test ! -e ../../bug' >log 2>told
    done
    cd ../.. || exit 1
    expect 'outcomes are kept for all paths' [ -z "$(find ../logs -name '*.log' | sed 's|.*/||' | sort | uniq -d)" ]
    git farmdawn --path in/odd main~3 main~9 -- sh -c "$command" >log
    # newer ones put the term in quotes
    expect 'git takes the log' sh -c 'git bisect replay log | grep -qE "is the first .?bad.? commit"'
    git bisect reset >/dev/null 2>&1
    expect 'the bad end is what is left' [ "$(answer_of git farmdawn --path in/side main~4 main~9 -- sh -c "$command")" = "$(first_bad main~4)" ]
    expect 'which is told' grep -q "none of the commits that change these paths is bad, and $(git rev-parse main~4) changes none of them" told
    listed=$(git farmdawn --path in/side main~4 main~9 -- sh -c 'exit 125' 2>told | tail -n 2 | head -n 1)
    expect 'also among skipped ones' [ "$listed" = "$(git rev-parse main~4)" ]
    expect 'with the same words' grep -q "$(git rev-parse main~4) was called bad, and changes none of these paths" told
    git farmdawn --path in/odd main main~9 -- sh -c 'exit 125' 2>told >log
    expect 'but not where it changes them' sh -c '! grep -q "changes none" told'
    nothing_left
}

# Along first parents a merge that changes none of the paths is no candidate, also where good commits reach all of its parents.
needs_paths_of_merges() { needs_all; }
test_paths_of_merges() {
    make_line 2 9
    tree=$(git rev-parse 'main^{tree}')
    one=$(git commit-tree -p main -m one "$tree") && two=$(git commit-tree -p main -m two "$tree") || exit 1
    good=$(git commit-tree -p "$one" -p "$two" -m good "$tree") || exit 1
    echo bug >bug && git add -A && bad=$(git commit-tree -p main -p "$one" -p "$two" -m bad "$(git write-tree)") || exit 1
    expect 'the bad end is what is left' [ "$(answer_of git farmdawn --first-parent --path content "$bad" "$good" -- sh -c "$command")" = "$(first_bad "$bad")" ]
    expect 'which is told' grep -q "none of the commits that change these paths is bad, and $bad changes none of them" told
    nothing_left
}

# What cannot be searched by is named, and nothing is tested.
needs_wrong_paths() { needs_all; }
test_wrong_paths() {
    make_line 4 2
    mkdir inner || exit 1
    for path in '' nowhere .. ../elsewhere /etc inner/../../x 'con*' ':(top)content' ':/content' "'content'" '-x' 'two
lines'; do
        git farmdawn --path "$path" main main~3 -- touch ../tested >log 2>told
        expect "no path: $path" [ $? -eq 1 ]
        expect 'it is named' grep -qF -e "--path ${path%%[
]*}" told
    done
    expect 'nothing was tested' [ ! -e ../tested ]
    git rm -q bug && git commit -q -m 'without' && git commit -q --allow-empty -m last || exit 1
    expect 'one that is no more' [ "$(answer_of git farmdawn --trust-ends --path bug main main~5 -- test -e bug)" = "$(first_bad main~1)" ]
    nothing_left
}

# What a test meant, and what is left: as many commits as git lists for the marks so far, with one worker and no merge base.
needs_progress() { needs_all; }
test_progress() {
    make_line 12 7
    git commit -q --allow-empty -m "$(printf 'bell \a, \033[31m')" || exit 1
    git farmdawn --workers 1 --term-new broken --skip main~4 main main~12 -- sh -c "$command" >log 2>told
    expect 'the answer' [ "$(tail -n 1 log)" = "$(git rev-parse main~5) is the first broken commit" ] || exit 1
    sed -n 's/^git bisect \([a-z]*\) \([0-9a-f]\{40\}\)$/\1 \2/p' log | grep -v skip >marks
    while read -r term name; do
        case $term in broken) bad=$name ;; good) goods="${goods-} ^$name" ;; esac
        # shellcheck disable=SC2086
        git rev-list --count "${bad:-main}" ^main~12 ${goods-}
    done <marks | sed '$d' | sort -u >due
    expect 'as many are told as left' [ "$(sed -n 's/ commits* left, .*about.*//p' told | sort -u | comm -23 - due)" = '' ]
    expect 'with those that are skipped' grep -q ' commits left, 1 of them skipped, about' told
    expect 'each test is told' [ "$(grep -c '^\(good  \|broken\)  [0-9a-f]\{12\}  change [0-9]*  ([0-9]* s)$' told)" -eq "$(grep -c ': testing' told)" ]
    git farmdawn --workers 1 main main~12 -- sh -c 'exit 255' >log 2>told
    expect 'and one that stops the search' grep -q '^stop  [0-9a-f]\{12\}  change [0-9]*  (exit 255, [0-9]* s)$' told
    git farmdawn --workers 4 --check-ends main~1 main~12 -- sh -c "$command" >log 2>told
    git farmdawn --check-ends main main~12 -- true >log 2>told
    expect 'no control character comes through' grep -q '^good  [0-9a-f]\{12\}  bell ?,   ([0-9]* s)$' told
    git farmdawn --quiet --fresh main main~12 -- sh -c "$command" >log 2>told
    expect 'nothing is told quietly' [ ! -s told ]
    git farmdawn --quiet main main~12 -- sh -c 'echo why; exit 255' >log 2>told
    expect 'but what is wrong' grep -q '^    why$' told
    nothing_left
}

needs_terminal() { needs_all && has python3 stty; }
test_terminal() { expect 'on a terminal' python3 "$top/tests/terminal.py"; }

run_test "$@"
