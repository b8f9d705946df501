#!/bin/sh
# Tests of the answers of git farmdawn that others can check: --certificate and --check.
. "$(dirname "$0")/helpers.sh"
FARMDAWN=$farmdawn
export FARMDAWN

needs_all() { has git python3 sha256sum && has_all_commands; }

# A search of the repository at hand, whose answer goes into the file `answer` beside it and holds here and in a clone; and
# what stands in it from the line `certificate 1` on is a certificate of the whole history. The test is $command.
command='test ! -e bug'
certified() {
    git farmdawn --workers 3 --certificate ../answer "$@" -- sh -c "$command" >../log 2>../told
    ended=$? # a text with $(..) would be what $? tells of, for bash
    expect "a search: $(cat ../told)" [ $ended -eq 0 ]
    found=$(sed -n 's/^\([0-9a-f]*\) is the first .* commit$/\1/p' ../log)
    holds . && holds_in_clone && holds_of_all && nothing_left
}

holds() {
    git -C "$1" farmdawn --check "$PWD/../answer" >../checked 2>../told
    ended=$?
    expect "it holds in $1: $(cat ../told)" [ $ended -eq 0 ]
    expect 'which is told' [ "$(head -n 1 ../checked)" = "certificate holds for $found" ]
}

holds_in_clone() {
    rm -rf ../clone
    git clone -q . ../clone 2>/dev/null && holds ../clone
}

# The stream of the whole history has other names than the repository where these have 64 digits.
holds_of_all() {
    [ ${#found} -eq 40 ] || return 0
    sed -n '/^certificate 1$/,$p' ../answer >../certificate
    git fast-export --all --no-data | "$farmdawn" check ../certificate >../by-program
    expect 'for the program, too' [ "$(cat ../by-program)" = "certificate holds for $found" ]
    git fast-export --all --no-data --show-original-ids | "$farmdawn" check --original-names ../certificate >../by-program
    expect 'and by original names' [ "$(cat ../by-program)" = "certificate holds for $found" ]
}

# A change of files in the repository at hand, as a commit of its own.
number=100
change() {
    number=$((number + 1))
    echo $number >"$1" && git add -A && git commit -q -m "$1 $number" || exit 1
}

needs_line() { needs_all; }
test_line() {
    make_line 20 9
    certified main main~19
    expect 'each outcome that was marked' [ "$(grep -c '^outcome' ../answer)" -eq "$(grep -c '^git bisect [bg]' ../log)" ]
    expect 'what was tested is told' grep -q 'tests (.*) of: sh -c test ! -e bug$' ../checked
    certified --skip main~16..main~13 main main~15 main~19
    (cd .. && git init -q empty && cd empty && git farmdawn --check ../answer >out 2>../told)
    expect 'another repository lacks it' [ $? -eq 8 ]
    expect 'which is told' grep -q 'this repository lacks the commit [0-9a-f]*$' ../told
    cp ../answer answer && git farmdawn --check answer >../checked || exit 1
    (mkdir -p deep && cd deep && git farmdawn --check ../answer >../../checked) || exit 1
}

# A commit on a branch that left the main line before the good commit, and came back behind it: its parent is reached from
# the good one by steps.
needs_merges() { needs_all; }
test_merges() {
    make_line 6 99
    git checkout -q -b topic main~3 && change a && change b && echo bug >bug && change c && change d
    git checkout -q -b side main~5 && change e
    git checkout -q main && git merge -q --no-ff -m 'merge side' side && change f || exit 1
    git merge -q --no-ff -m 'merge topic' topic && change g || exit 1
    certified main main~2
    certified --first-parent main main~2
    expect 'along first parents the answer is a merge' [ "$found" = "$(git rev-parse main~1)" ]
    expect 'and it says so' grep -qx first-parent ../answer
    git checkout -q -b late main~3 && echo bug >bug && change h && git checkout -q main && git reset -q --hard main~2 &&
        git merge -q --no-ff -m 'merge late' late && change i || exit 1
    certified main main~2
    expect 'by steps' grep -q '^reach' ../answer
    git checkout -q -b apart main~5 && change j && git checkout -q main || exit 1
    certified main apart
    git checkout -q -b one main && change k && git checkout -q -b two main~1 && change l && git merge -q -m cross one &&
        git checkout -q one && git merge -q -m cross two~1 && echo worse >worse && change m || exit 1
    command='test ! -e worse' && certified one two
}

needs_terms() { needs_all; }
test_terms() {
    make_line 12 5
    certified --term-new fixed --term-old broken main main~11
    expect 'in these words' grep -q 'it is the first fixed commit' ../checked
    # shellcheck disable=SC2016
    expect 'odd words' git farmdawn --certificate ../answer main main~11 -- sh -c 'test ! -e bug' 'back\slash' "$(printf 'gr\374n\n\t"')" '' >../log 2>../told
    holds . && holds_in_clone
    expect 'are on a line each' [ "$(grep -c '^word' ../answer)" -eq 6 ]
    mkdir deep && echo 1 >deep/file && git add -A && git commit -q -m deep && cd deep && change file && change file || exit 1
    expect 'in a folder' git farmdawn --certificate ../../answer main main~2 -- sh -c 'test "$(cat file)" != 102' >../../log 2>../../told
    cd .. && found=$(git rev-parse main) && holds .
    expect 'which is named' grep -qx 'folder deep/' ../answer
}

needs_sha256() { needs_all && git init -q --object-format=sha256 "$work/probe" 2>/dev/null; }
test_sha256() {
    git init -q -b main --object-format=sha256 repository || exit 1
    make_line 9 4
    certified main main~8
    expect 'by names of 64 digits' grep -q '^bad [0-9a-f]\{64\}$' ../answer
}

needs_shallow() { needs_all; }
test_shallow() {
    make_line 20 9
    certified main main~19
    git clone -q --depth 14 "file://$PWD" ../shallow && git -C ../shallow farmdawn --check "$PWD/../answer" >../checked 2>../told
    expect 'a shallow clone lacks a commit' [ $? -eq 8 ]
    expect 'and is told' grep -q 'this clone is shallow, and lacks the commit [0-9a-f]*; git fetch --unshallow brings it' ../told
    git -C ../shallow fetch -q --unshallow && holds ../shallow
    cd ../shallow && git replace "$found" "$found~3" && holds .
}

# The sum of an answer that was changed, put right.
sum_again() {
    tail -n +3 "$1" >below
    { sed -n 1p "$1" && printf 'sum %s\n' "$(sha256sum <below | cut -c1-64)" && cat below; } >again && mv again "$1"
}

# An answer that a command of sed changes is refused, with what stands in the third word; and it was another one.
refused() {
    sed "$2" ../answer >wrong
    cmp -s wrong ../answer && expect "another answer: $1" false
    [ -z "${again-yes}" ] || sum_again wrong
    git farmdawn --check wrong >out 2>told
    ended=$?
    expect "refused: $1 ($(cat told out))" [ $ended -eq 20 ]
    expect "for its reason: $1 ($(cat told))" grep -q "wrong does not hold: .*$3" told
    expect 'and nothing else is said' [ ! -s out ]
}

needs_wrong() { needs_all; }
test_wrong() {
    make_line 7 99
    git checkout -q -b late main~4 && echo bug >bug2 && change x && change y && git checkout -q main && change z && change z && change z &&
        git merge -q -m 'merge late' late && change w || exit 1
    command='test ! -e bug2' && certified --skip main~4 main main~5
    expect 'with steps' grep -q '^reach' ../answer
    good=$(sed -n 's/^outcome \(.*\) 0$/\1/p' ../answer | head -n 1)
    other=$(git rev-parse main~3)
    tree=$(git rev-parse 'main^{tree}')
    again='' refused 'a changed outcome' 's/^\(outcome .*\) 1$/\1 2/' 'line 2, sum: '
    again='' refused 'another sum' '2s/[0-9a-f]*$/0000000000000000000000000000000000000000000000000000000000000000/' 'line 2, sum: '
    # driver/tests/test_answer.py leaves out each line
    for line in 1 2 3 '$'; do again='' refused "without line $line" "${line}d" ''; done
    again='' refused 'a line twice' '/^reach/p' 'line 2, sum: '
    again='' refused 'a blank' 's/^end$/end /' 'line 2, sum: '
    again='' refused 'bytes' 's/^word sh$/&\x1b/' 'line 2, sum: '
    again='' refused 'a carriage return' 's/$/\r/' 'line 1'
    refused 'another kind of file' '1s/1/2/' 'line 1'
    refused 'a good outcome that was bad' "s/^outcome $good 0/outcome $good 1/" ', good: '
    refused 'a bad outcome that was good' 's/^\(outcome .*\) 1$/\1 0/' ''
    refused 'a status above 125' "s/^outcome $good 0/outcome $good 126/" ', outcome: '
    refused 'two outcomes' "s/^outcome $good 0/&\n&/" ', outcome: '
    refused 'an end that was tested' "0,/^outcome/s/^outcome/outcome $(git rev-parse main) 1\n&/" ', outcome: '
    refused 'a good commit left out' "/^good $good/d" 'line '
    refused 'a good commit that was not tested' "s/^good $good/&\ngood $other/" ', good: '
    refused 'an outcome left out' "/^outcome $good/d" ', good: '
    refused 'a bad outcome not behind it' "0,/^outcome/s/^outcome/outcome $(git rev-parse main~6) 1\n&/" 'does not come behind'
    refused 'zeros before a status' "0,/^outcome/s/^outcome/outcome $(git rev-parse main~6) 01\n&/" ', outcome: '
    refused 'a bad end that was good' 's/^\(called-bad [^ ]*\).*/\1 0/' ', called-bad: '
    refused 'a bad end by no status' 's/^\(called-bad [^ ]*\).*/\1 99999999999/' ', called-bad: '
    refused 'a good end that was bad' 's/^\(called-good [^ ]*\).*/\1 1/' ', called-good: '
    refused 'a skip that contradicts it' "0,/^confirmed/s/^confirmed/against $other 125\n&/" ', against: '
    refused 'words behind a time' 's/^made .*/& x/' ', made: '
    refused 'words behind a number' 's/^made .*/retry 2 x\n&/' ', retry: '
    refused 'words behind a term' 's/^made .*/term-new fixed x\n&/' ', term-new: '
    refused 'an answer that was good again' "s/^confirmed $found bad/confirmed $found good/" ', confirmed: '
    refused 'another commit that was bad again' "s/^certificate 1/confirmed $other bad 9 of 9\n&/" ', confirmed: '
    refused 'words behind a count' "s/^confirmed $found .*/& x/" ', confirmed: '
    refused 'another bad commit' "s/^bad .*/bad $other/" ', bad: '
    refused 'which is called so' "s/^bad .*/bad $other/; s/^called-bad .*/called-bad $other/" ''
    refused 'a step left out' '0,/^reach/{/^reach/d}' 'line '
    refused 'all steps left out' '/^reach/d' 'line '
    refused 'a step to no parent' "s/^reach [^ ]*/reach $other/" ', reach: '
    mkdir -p .git/info && sed -n "s/^reach .* from \(.*\)/\1 $other/p" ../answer >.git/info/grafts
    refused 'a step to no parent but of .git/info/grafts' "s/^reach [^ ]*/reach $other/" ', reach: '
    rm .git/info/grafts
    refused 'a step from elsewhere' "s/^\(reach .* from\) .*/\1 $other/" ', reach: '
    refused 'no end' '/^end$/d' 'is missing'
    refused 'lines behind it' "s/^end$/&\ngood $good/" 'line '
    refused 'no good commit' '/^called-good/d; /^good/d; /^outcome .* 0$/d' 'line '
    refused 'no word' '/^word/d' 'line '
    refused 'a name in capitals' 's/^\(called-good\) .*/\1 AAAAAAAAAAAAAAAAAAAAAAAAAAAAAAAAAAAAAAAA/' ', called-good: '
    refused 'a tree' "s/^called-good .*/&\ncalled-good $tree/; s/^certificate 1/&\n/; s/^good $good/good $tree\n&/" ''
    refused 'the first one found as a good one' "s/^called-good .*/&\ncalled-good $(git rev-parse main~1)/; s/^good $good/good $(git rev-parse main~1)\n&/" 'comes behind'
    sed 's/^word sh/word \\999/' ../answer >wrong && sum_again wrong && git farmdawn --check wrong >out 2>told
    expect 'a word is claimed, and told as it stands' grep -qF 'of: \999 -c test' out
    (head -c 300 ../answer >wrong && git farmdawn --check wrong >out 2>told)
    expect 'a torn file' [ $? -eq 20 ]
    expect 'by its name' grep -q 'wrong does not hold' told
    for bytes in 0 1 400; do
        head -c $bytes /dev/urandom >wrong
        row expect 'any bytes' sh -c '! git farmdawn --check wrong >out 2>told'
    done
    head -c 17000000 /dev/zero >wrong && git farmdawn --check wrong >out 2>told
    expect 'a large file' [ $? -eq 9 ]
    for words in '' 'wrong two' nowhere .; do
        # shellcheck disable=SC2086
        git farmdawn --check $words >out 2>told
        row expect "a fault: $words" sh -c '[ "$1" -eq 1 ] || [ "$1" -eq 16 ]' sh $?
    done
    nothing_left
}

# A file that cannot be written is told before any test; a search that finds no commit leaves it as it is.
needs_files() { needs_all; }
test_files() {
    make_line 12 7
    mkdir ../folder && mkfifo ../pipe || exit 1
    for file in ../folder ../pipe ../nowhere/answer /dev/null /dev/full; do
        git farmdawn --certificate "$file" main main~11 -- touch ../tested >../log 2>../told
        row expect "no file: $file" [ $? -eq 14 ]
        row expect 'which is told in a line' [ "$(wc -l <../told)" -eq 1 ]
    done
    expect 'nothing was tested' [ ! -e ../tested ]
    echo before >../answer
    # shellcheck disable=SC2016 # the words are those of the inner shell
    git farmdawn --certificate ../answer main main~11 -- sh -c 'case $(cat content) in 0) exit 0 ;; 11) exit 1 ;; *) exit 125 ;; esac' >../log 2>../told
    expect 'no commit is found' [ $? -eq 2 ]
    expect 'which is told' grep -q 'no first bad commit was found' ../told
    expect 'and the file is left' [ "$(cat ../answer)" = before ]
    ln -sf "$PWD/../aside" ../answer && certified main main~11
    expect 'a link is replaced' [ ! -L ../answer ]
    expect 'and not followed' [ ! -e ../aside ]
    expect 'nothing is left beside it' [ "$(cd .. && echo answer*)" = answer ]
    certified main main~6
    expect 'without any test' [ "$(grep -c ^outcome ../answer)" -ge 0 ]
}

long='wrong'
run_test "$@"
