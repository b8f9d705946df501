#!/bin/sh
# Tests of git farmdawn, beside git bisect run.
. "$(dirname "$0")/helpers.sh"
FARMDAWN=$farmdawn
export FARMDAWN

needs_all() { has git python3 && has_program; }

# Both name the same commit, `git bisect replay` takes the printed log, and nothing is left. The test is $command.
agree() {
    # shellcheck disable=SC2086
    expect 'git farmdawn finds a commit' git farmdawn --workers 4 ${options-} ${skip:+--skip "$skip"} "$@" -- sh -c "$command" >log
    ours=$(sed -n 's/^\([0-9a-f]*\) is the first .* commit$/\1/p' log)
    # shellcheck disable=SC2086
    theirs=$(git_answer ${git_options-${options-}} "$@")
    expect 'the answer of git bisect run' [ "$ours" = "$theirs" ]
    expect 'git bisect replay takes the log' git bisect replay log
    expect 'and comes to the same commit' [ "$(git rev-parse "refs/bisect/${new_term:-bad}")" = "$ours" ]
    git bisect reset >/dev/null 2>&1
    nothing_left
}

command='test ! -e bug'

needs_line() { needs_all; }
test_line() {
    make_line 30 17
    agree main main~29
    skip=main~20..main~18 agree main main~29
}

needs_merges() { needs_all; }
test_merges() {
    make_line 6 99
    for topic in 1 2 3; do
        git checkout -q -b topic$topic "main~$topic"
        for number in 1 2 3; do
            echo $number >topic$topic
            [ $topic$number != 22 ] || echo bug >bug
            git add -A && git commit -q -m "topic $topic, $number" || exit 1
        done
        git checkout -q main && git merge -q --no-ff -m "merge $topic" topic$topic || exit 1
    done
    agree main main~5
    options=--first-parent agree main main~8
    agree topic2 main~5 topic1
    agree main topic1 topic3
}

needs_unrelated_good() { needs_all; }
test_unrelated_good() {
    make_line 10 6
    git checkout -q -b side main~7 && echo side >side && git add -A && git commit -q -m side || exit 1
    git checkout -q main
    agree main side
}

needs_terms() { needs_all; }
test_terms() {
    make_line 12 5
    new_term=fixed options='--term-new fixed --term-old broken' agree main main~11
}

needs_encodings() { needs_all; }
test_encodings() {
    make_line 4 9
    for text in 'a "quoted" [subject]' "it's" 'git bisect good main' 'back\slash'; do
        echo "$text" >>content && git commit -q -a -m "$text" || exit 1
    done
    printf 'gr\374n\n' | git -c i18n.commitEncoding=ISO-8859-1 commit -q --allow-empty -F - || exit 1
    git commit -q --allow-empty --allow-empty-message -m '' || exit 1
    echo bug >bug && git add -A && git commit -q -m bug && git commit -q --allow-empty -m last || exit 1
    agree main main~10
}

# Six signed commits behind three others, of which the fourth is the first bad one.
sign_and_search() {
    git config commit.gpgsign true && git config log.showSignature true || exit 1
    for number in 3 4 5 6 7 8; do
        echo $number >content
        [ $number -lt 6 ] || echo bug >bug
        git add -A && git commit -q -m "signed $number" || exit 1
    done
    expect 'the commits are signed' sh -c "git cat-file commit HEAD | grep -q '^gpgsig '"
    agree main main~8
}

needs_signed() { needs_all && has ssh-keygen; }
test_signed() {
    make_line 3 9
    ssh-keygen -q -t ed25519 -N '' -f ../key || exit 1
    git config gpg.format ssh && git config user.signingkey "$PWD/../key" || exit 1
    sign_and_search
}

needs_signed_by_gpg() { needs_all && has gpg gpgconf; }
test_signed_by_gpg() {
    make_line 3 9
    GNUPGHOME=$(mktemp -d)
    export GNUPGHOME
    trap 'gpgconf --kill all; rm -rf "$GNUPGHOME"' EXIT
    gpg --batch --quiet --passphrase '' --quick-generate-key bo@example.org ed25519 sign never || exit 1
    git config user.signingkey bo@example.org || exit 1
    sign_and_search
}

needs_sha256() { needs_all && git init -q --object-format=sha256 "$work/probe" 2>/dev/null; }
test_sha256() {
    git init -q -b main --object-format=sha256 repository || exit 1
    make_line 9 4
    agree main main~8
}

needs_shallow() { needs_all; }
test_shallow() {
    (make_line 30 22) || exit 1
    git clone -q --depth 15 "file://$PWD/repository" clone && cd clone || exit 1
    agree main main~14
}

# A clone whose cut lies between the ends, also on a branch that was merged, is refused, and the line brings the rest.
needs_cut() { needs_all; }
test_cut() {
    (make_line 30 22 && git checkout -q -b side main~25 && for i in 1 2 3 4 5 6; do git commit -q --allow-empty -m "side $i"; done &&
        git checkout -q main && git merge -q --no-edit side) || exit 1
    git clone -q --depth 5 "file://$PWD/repository" clone && cd clone || exit 1
    expect 'it is refused' [ "$(git farmdawn main main~3 -- true 2>../told; echo $?)" = 8 ]
    expect 'and the line says how to mend it' grep -q 'this clone is shallow, and lacks the parents of .*; git fetch --unshallow --tags brings the rest$' ../told
    git fetch -q --unshallow --tags
    agree main main~25
    git checkout -q --detach && git branch -q -D main
    git farmdawn main HEAD~3 -- true 2>../told
    expect 'a branch that the clone has as that of the other side' [ "$? $(grep -c 'did you mean origin/main?' ../told)" = '8 1' ]
}

needs_part_of_many() { needs_all; }
test_part_of_many() {
    git init -q -b main repository && cd repository || exit 1
    awk 'BEGIN { for (i = 1; i <= 2000; i++) {
        printf "commit refs/heads/main\ncommitter gen <gen> %d +0000\ndata 2\nc\n", i
        if (i == 1978) print "M 100644 inline bug\ndata 0\n" } }' | git fast-import --quiet && git reset -q --hard || exit 1
    agree main main~40
    expect 'few tests' [ "$(grep -c '^git bisect' log)" -lt 9 ]
}

needs_submodules() { needs_all; }
test_submodules() {
    git init -q -b main inner && (cd inner && echo x >inside && git add -A && git commit -q -m inside) || exit 1
    (make_line 2 9) && cd repository || exit 1
    git config protocol.file.allow always
    GIT_ALLOW_PROTOCOL=file git submodule add -q "$PWD/../inner" inner && git commit -q -m inner || exit 1
    for number in 11 12 13 14 15; do
        echo $number >content
        [ $number -lt 14 ] || echo bug >bug
        git add -A && git commit -q -m "with submodule $number" || exit 1
    done
    command='test ! -e bug && test -e inner/inside'
    export GIT_ALLOW_PROTOCOL=file
    git_options='' options=--submodules agree main main~5
}

needs_folders_and_scripts() { needs_all; }
test_folders_and_scripts() {
    make_line 3 9
    mkdir deep && echo x >deep/file && git add -A && git commit -q -m deep || exit 1
    for number in 1 2 3 4; do
        [ $number -lt 3 ] || echo bug >bug
        echo $number >deep/file && git add -A && git commit -q -m "deep $number" || exit 1
    done
    printf '#!/bin/sh\ntest -e deep/file && test ! -e bug\n' >check.sh && chmod +x check.sh
    expect 'a script that is not tracked' [ "$(git farmdawn main main~4 -- ./check.sh | tail -n 1)" = "$(git rev-parse main~1) is the first bad commit" ]
    printf '#!/bin/sh\ntest "$(cat deep/file)" != 4\n' >check.sh
    expect 'another text of it is another test' [ "$(git farmdawn main main~4 -- ./check.sh | tail -n 1)" = "$(git rev-parse main) is the first bad commit" ]
    cp check.sh ../outside.sh
    expect 'a script outside' [ "$(git farmdawn main main~4 -- sh ../outside.sh | tail -n 1)" = "$(git rev-parse main) is the first bad commit" ]
    echo 'exit 255' >../outside.sh
    expect 'and another text of that' sh -c '! git farmdawn main main~4 -- sh ../outside.sh'
    cd deep || exit 1
    expect 'from a folder inside' [ "$(git farmdawn main main~4 -- sh -c 'test -e file && test ! -e ../bug' | tail -n 1)" = "$(git rev-parse main~1) is the first bad commit" ]
    cd .. && nothing_left
}

# In a folder with an odd name, in a linked worktree, from outside, and beside another search in the same repository.
needs_places() { needs_all; }
test_places() {
    mkdir "a 'b\" \$c" && cd "a 'b\" \$c" || exit 1
    make_line 12 7
    answer="$(git rev-parse main~4) is the first bad commit"
    ask() { "$@" main main~11 -- sh -c "$command" 2>/dev/null | tail -n 1; }
    expect 'an odd name' [ "$(ask git farmdawn)" = "$answer" ]
    git worktree add -q ../linked main~11 && cd ../linked || exit 1
    expect 'a linked worktree' [ "$(ask git farmdawn --fresh)" = "$answer" ]
    cd / || exit 1
    expect 'from outside' [ "$(ask git -C "$OLDPWD" farmdawn --fresh)" = "$answer" ]
    cd "$OLDPWD" && git -C . worktree list >before || exit 1
    for number in 1 2 3; do
        ask git farmdawn --fresh --workers 3 --log-dir "../logs$number" >"../answer$number" &
    done
    wait
    for number in 1 2 3; do row expect 'three at once' [ "$(cat ../answer$number)" = "$answer" ]; done
    git worktree list >after
    expect 'the worktrees are as before' cmp before after
}

needs_words() { needs_all && has make; }
test_words() {
    make_line 2 9
    for number in 2 3 4 5; do
        printf 'test:\n\ttest %s -lt 4\n' $number >Makefile
        git add -A && git commit -q -m "make $number" || exit 1
    done
    expect 'the command gets its own words alone' [ "$(git farmdawn main main~3 -- make test | tail -n 1)" = "$(git rev-parse main~1) is the first bad commit" ]
    # shellcheck disable=SC2016
    expect 'and the name in the environment' git farmdawn --workers 1 main main~3 -- sh -c '
        test "$#|$1|$2" = "2|a b|" && test "$(git rev-parse HEAD)" = "$FARMDAWN_COMMIT" || exit 255
        make -s test' sh 'a b' ''
    expect 'two words' git farmdawn main main~3 -- sh -c 'make -s test' a b
    git farmdawn main main~3 -- sh -c 'make -s test' 'a
b' >log 2>told
    expect 'and one of two lines are not the same test' grep -q ': testing ' told
    nothing_left
}

# The third test, and each behind it, runs on until the file `on` is there: so the stop comes in the middle, when one at
# least has ended. It is by TERM, for sh ignores INT in what it runs in the background.
needs_going_on() { needs_all; }
test_going_on() {
    make_line 20 9
    # shellcheck disable=SC2016
    set -- main main~19 -- sh -c 'echo "$FARMDAWN_COMMIT" >>"$0/tested"
        while [ -e "$0" ] && [ ! -e "$0/on" ] && [ "$(wc -l <"$0/tested")" -ge 3 ]; do sleep 0.1; done
        test ! -e bug' "$PWD/.."
    git farmdawn --workers 2 "$@" >log 2>told &
    three_began() { [ -e ../tested ] && [ "$(wc -l <../tested)" -ge 3 ]; }
    wait_beside $! three_began
    kill -TERM $!
    wait $!
    expect 'it was stopped' [ $? -eq 143 ]
    expect 'and says how to go on' grep -q ': stopped; the same line goes on from [1-9][0-9]* outcomes*$' told
    nothing_left
    cat .git/farmdawn/results-*/*.outcome | sed 's/ .*//' >known
    touch ../on
    git farmdawn --workers 2 "$@" >log
    expect 'the answer' [ "$(tail -n 1 log)" = "$(git rev-parse main~10) is the first bad commit" ]
    git rev-parse main~10 main~10^ >alone # these are tested alone, too
    grep -vxFf alone known >once || :
    expect 'what had ended was tested once' [ "$(grep -cxFf once ../tested)" -eq "$(wc -l <once)" ]
    cp ../tested before
    expect 'the answer at once' [ "$(git farmdawn "$@" | tail -n 1)" = "$(tail -n 1 log)" ]
    expect 'nothing was tested again' cmp before ../tested
    nothing_left
}

# The folder of a run that was killed with its guardian is removed by the next one, as soon as none of its tests runs on; that of a run
# that another user or host has, which is known by its lock alone, is left.
needs_dead_runs() { needs_all && has pgrep flock; }
test_dead_runs() {
    make_line 8 3
    # shellcheck disable=SC2016
    "$driver/git-farmdawn" --workers 1 main main~7 -- sh -c 'echo $$ >"$0/pid.new" && mv "$0/pid.new" "$0/began"
        while [ -e "$0" ] && [ ! -e "$0/on" ]; do sleep 0.1; done; test ! -e bug' "$PWD/.." >log 2>&1 &
    wait_beside $! [ -e ../began ]
    # all but the test, and the driver last: it would have another guardian, and that would end the test
    kill -STOP $!
    for part in $(pgrep -P $! | grep -vxF "$(cat ../began)") $!; do kill -KILL "$part"; done
    wait $!
    killed=$(ls -d .git/farmdawn/run.*)
    expect 'a search' git farmdawn main main~7 -- sh -c "$command"
    expect 'a test that runs on keeps its folder' [ "$(ls -d .git/farmdawn/run.*)" = "$killed" ]
    touch ../on
    wait_until 'the test has ended' flock -n "$killed/lock" true
    mkdir .git/farmdawn/run.elsewhere
    flock .git/farmdawn/run.elsewhere/lock sh -c 'while [ -e .. ] && [ ! -e ../off ]; do sleep 0.1; done' &
    wait_beside $! [ -e .git/farmdawn/run.elsewhere/lock ]
    expect 'the same search' git farmdawn main main~7 -- sh -c "$command"
    expect 'a run that lives keeps its folder' [ "$(ls -d .git/farmdawn/run.*)" = .git/farmdawn/run.elsewhere ]
    touch ../off
    wait $!
    expect 'and the same search' git farmdawn main main~7 -- sh -c "$command"
    nothing_left
}

# What a test printed is kept by commit, and one that takes too long is a skip.
needs_logs_and_limits() { needs_all && has timeout pgrep; }
test_logs_and_limits() {
    make_line 6 4
    hangs=$(git rev-parse main~3)
    # shellcheck disable=SC2016
    for limit in $limits; do
        git farmdawn --fresh --timeout "$limit" --log-dir ../logs main main~5 -- sh -c '
            echo "this is $FARMDAWN_COMMIT"; cat content >&2
            [ "$FARMDAWN_COMMIT" != "$0" ] || $1
            test ! -e bug' "$hangs" "$long_sleep" >log 2>told
        ended=$?
        [ "$(grep -c '^git bisect skip' log)" -gt 1 ] || break # it was long enough for the others
    done
    expect 'a search' [ $ended -eq 0 ]
    expect 'the answer' [ "$(tail -n 1 log)" = "$(git rev-parse main~1) is the first bad commit" ]
    expect 'the one that hangs is skipped' grep -q "^git bisect skip $hangs$" log
    nothing_sleeps
    for tested in $(sed -n 's/^git bisect [a-z]* \([0-9a-f]\{40\}\)$/\1/p' log); do
        expect 'what was printed is kept' grep -qx "this is $tested" "../logs/$tested.log"
    done
    nothing_left
}

# A file that git tracks means the commit's own; git bisect run has the same answer. The files note1, note2, .. come one by one.
make_notes() {
    git init -q -b main repository && cd repository || exit 1
    printf 'made: made.in\n\ttest ! -e note5 && cp made.in made\n' >Makefile && echo x >made.in
    for number in 1 2 3 4 5 6 7 8; do
        echo $number >note$number && git add -A && git commit -q -m "note $number" || exit 1
    done
}

needs_tracked_files() { needs_all && has make; }
test_tracked_files() {
    make_notes
    expect 'which commit brought a file' [ "$(answer_of git farmdawn main main~7 -- test ! -e note4)" = "$(first_bad main~4)" ]
    git rm -q note3 && git commit -q -m 'without note 3' && echo 3 >note3 && git commit -q --allow-empty -m last || exit 1
    expect 'which commit removed a file that is here again' [ "$(answer_of git farmdawn main main~6 -- test -e note3)" = "$(first_bad main~1)" ]
    expect 'of which a line tells' grep -q 'note3 is not tracked now, but some of the commits have it' told
    expect 'a word of grep' [ "$(answer_of git farmdawn main~3 main~9 -- sh -c '! grep -q 4 note4' note4)" = "$(first_bad main~6)" ]
    echo x >made && git add made && git commit -q -m made || exit 1
    # make takes a file for made that a checkout wrote in the same moment as what it is made of
    expect 'a target of make' [ "$(answer_of git farmdawn --trust-ends main main~9 -- make -s made)" = "$(first_bad main~6)" ]
    echo 'test ! -e note6' >new.sh
    expect 'a script that is not tracked' [ "$(answer_of git farmdawn main main~9 -- sh new.sh)" = "$(first_bad main~5)" ]
    expect 'is told' grep -q 'new.sh is not tracked; each checkout gets a copy of it' told
    expect '--copy brings a tracked one, too' [ "$(answer_of git farmdawn --trust-ends --copy note6 main~2 main~9 -- test ! -e note6)" = "$(first_bad main~8)" ]
    nothing_left
}

# An old commit has a link in place of a folder: nothing is written where it leads.
needs_links_of_commits() { needs_all; }
test_links_of_commits() {
    mkdir elsewhere && elsewhere=$PWD/elsewhere
    make_line 3 9
    ln -s "$elsewhere" tests && ln -s "$elsewhere/none" check.sh && git add -A && git commit -q -m links || exit 1
    git rm -q tests check.sh && mkdir tests || exit 1
    for number in 1 2 3 4; do
        [ $number -lt 3 ] || echo bug >bug
        echo $number >content && git add -A && git commit -q -m "then $number" || exit 1
    done
    echo 'test ! -e bug' >tests/run.sh && cp tests/run.sh check.sh
    expect 'an answer' [ "$(answer_of git farmdawn main main~5 -- sh tests/run.sh)" = "$(first_bad main~1)" ]
    expect 'nothing outside' [ -z "$(ls elsewhere 2>/dev/null; ls "$elsewhere")" ]
    git farmdawn --copy check.sh --copy tests main main~5 -- sh -c "$command" >log 2>told
    expect 'nothing outside by --copy' [ -z "$(ls "$elsewhere")" ]
    nothing_left
}

# What is kept and not whole, or not an outcome of that commit, is forgotten and told.
needs_torn_outcomes() { needs_all; }
test_torn_outcomes() {
    make_line 20 9
    set -- git farmdawn --workers 2 main main~19 -- sh -c "$command; "'s=$?; echo x >>"$0/tested"; exit $s' "$PWD/.."
    expect 'the answer' [ "$(answer_of "$@")" = "$(first_bad main~10)" ]
    other=$(git rev-parse main)
    # the form of each is a row of test_kept.py
    for text in '%s 0' "$other"' 1 end\n' ''; do
        rm -f ../tested
        for kept in .git/farmdawn/results-*/*.outcome; do
            name=${kept##*/}
            # shellcheck disable=SC2059
            printf "$text" "${name%.outcome}" "${name%.outcome}" >"$kept"
        done
        row expect "the same answer: $text" [ "$(answer_of "$@")" = "$(first_bad main~10)" ]
        row expect 'and what is forgotten is told' grep -q 'no whole outcome, and is forgotten' told
        row expect 'and tested again' [ "$(wc -l <../tested)" -ge 4 ]
    done
    rm ../tested
    expect 'whole ones are believed' [ "$(answer_of "$@")" = "$(first_bad main~10)" ]
    expect 'and nothing is tested' [ ! -e ../tested ]
    rm -f ../tested && cp -Rp . ../copy && cd ../copy || exit 1
    expect 'those of a copy are believed, too' [ "$(answer_of "$@")" = "$(first_bad main~10)" ]
    expect 'and nothing is tested there' [ ! -e ../tested ]
    for kept in .git/farmdawn/results-*/*.outcome; do sed 's/ [01] / 1 /' "$kept" >../changed && cp ../changed "$kept"; done
    expect 'those that were changed elsewhere are not' [ "$(answer_of "$@")" = "$(first_bad main~10)" ]
    expect 'and it is told' grep -q 'no whole outcome, and is forgotten' told
    nothing_left
}

# Links in a git folder that came from elsewhere lead to nothing that is removed or written.
needs_foreign_folders() { needs_all; }
test_foreign_folders() {
    mkdir -p victim/2023-photos victim/0 && echo x >victim/2023-photos/x && echo x >victim/file
    make_line 12 7
    mkdir -p .git/farmdawn/run.evil .git/farmdawn/run.other && touch .git/farmdawn/run.evil/lock && ln -s "$PWD/../victim" .git/farmdawn/run.evil/pool
    ln -s "$PWD/../victim/file" .git/farmdawn/run.other/lock && ln -s "$PWD/../victim" .git/farmdawn/run.link
    set -- git farmdawn main main~11 -- sh -c "$command"
    ls -R ../victim >before
    expect 'the answer' [ "$(answer_of "$@")" = "$(first_bad main~4)" ]
    expect 'nothing elsewhere was removed' [ "$(ls -R ../victim)" = "$(cat before)" ]
    expect 'and the folder that was ours to remove is' [ ! -e .git/farmdawn/run.evil ]
    rm -r .git/farmdawn/run.*
    results=$(ls -d .git/farmdawn/results-*)
    for kept in "$results"/*; do ln -sf "$PWD/../victim/file" "$kept"; done
    expect 'the same answer' [ "$(answer_of "$@")" = "$(first_bad main~4)" ]
    expect 'no link was followed' [ "$(cat ../victim/file)" = x ]
    rm -rf "$results" && ln -s "$PWD/../victim" "$results"
    "$@" >log 2>told
    expect 'a link in place of the results is refused' [ $? -eq 14 ]
    rm -rf .git/farmdawn && ln -s "$PWD/../victim" .git/farmdawn
    "$@" >log 2>told
    expect 'and one in place of all' [ $? -eq 14 ]
    expect 'nothing elsewhere has changed' [ "$(ls -A ../victim | tr '\n' ' ')" = '0 2023-photos file ' ]
    rm .git/farmdawn
    nothing_left
}

# The answer is right with all of this exported, and the shell has nothing to say.
right_with() {
    expect "the answer with $*" [ "$(answer_of env "$@" git farmdawn --fresh main main~11 -- sh sub/check.sh)" = "$(first_bad main~4)" ]
    expect "nothing of a shell's with $*" sh -c '! grep -q "illegal\|not found\|rror" told'
}

# What is exported leads to no other answer. Each of these is a wrong answer, or a fault, where it is followed.
needs_environment() { needs_all; }
test_environment() {
    make_line 12 7
    mkdir -p ../path/sub sub && printf 'test ! -e bug\n' >sub/check.sh && printf 'exit 0\n' >../path/sub/check.sh && echo 'exit 0' >../environment || exit 1
    printf 'sh() { exit 0; }\n' >>../environment
    git init -q ../other && (cd ../other && git commit -q --allow-empty -m other) || exit 1
    right_with "CDPATH=$PWD/../path" "ENV=$PWD/../environment" "BASH_ENV=$PWD/../environment" IFS=0123456789abcdef/. POSIXLY_CORRECT=1 \
        LC_ALL=tr_TR.UTF-8 GREP_OPTIONS=-v GREP_COLORS=x AWKPATH=/nowhere FARMDAWN_QUIET=1
    right_with GIT_INDEX_FILE=/nowhere GIT_EXTERNAL_DIFF=false GIT_PREFIX=sub/ "GIT_CEILING_DIRECTORIES=$PWD" GIT_OPTIONAL_LOCKS=1 \
        GIT_LITERAL_PATHSPECS=1 GIT_DIR=.git GIT_TRACE=1 GIT_TRACE2=1 GIT_CONFIG_PARAMETERS="'log.showSignature=true'"
    right_with "GIT_DIR=$PWD/.git" GIT_GLOB_PATHSPECS=1 GIT_ICASE_PATHSPECS=1 LC_ALL=C.UTF-8
    right_with farmdawn_run=exit commit=x state=/nowhere results=/nowhere log_dir=/nowhere known=0 status=0 copies=.git bad=x goods=x \
        death=true here=/nowhere top=/nowhere timeout=1 submodules=1 words=x parent=x newline=x
    right_with 'BASH_FUNC_git%%=() { exit 0; }' 'BASH_FUNC_read%%=() { read_name=x; }' 'BASH_FUNC_printf%%=() { :; }' \
        'BASH_FUNC_cd%%=() { :; }' 'BASH_FUNC_sed%%=() { cat; }'
    # these tell which repository it is, and where its work tree is
    (cd / && GIT_DIR=$OLDPWD/.git GIT_WORK_TREE=$OLDPWD git farmdawn --fresh main main~11 -- sh -c "$command") >log 2>told
    expect 'the repository that GIT_DIR names' [ "$(tail -n 1 log)" = "$(first_bad main~4)" ]
    # shellcheck disable=SC2016
    expect 'the test has its environment' [ "$(answer_of env LC_ALL=C.UTF-8 CC=mine ENV=e git farmdawn --fresh main main~11 -- sh -c '
        test "$LC_ALL $CC $ENV ${GIT_DIR-none} ${farmdawn_run-none} $(env | grep -c ^POSIXLY_CORRECT=)" = "C.UTF-8 mine e none none 0" || exit 255; test ! -e bug')" = "$(first_bad main~4)" ]
    # shellcheck disable=SC2016
    expect 'and no variable that was not set' [ "$(env -u LC_ALL git farmdawn --fresh main main~11 -- sh -c '
        test -z "${LC_ALL+x}" || exit 255; test ! -e bug' 2>told | tail -n 1)" = "$(first_bad main~4)" ]
    nothing_left
}

needs_bash_environment() { needs_all && has bash; }
test_bash_environment() {
    make_line 12 7
    printf 'git() { :; }\nexit 0\n' >../environment
    # shellcheck disable=SC2016
    expect 'the answer by bash' [ "$(bash -c '
        for name in git awk sed cat read printf test unset command cd true rm mkdir export set eval exit trap shift; do
            eval "$name() { echo mine; }" && export -f $name
        done 2>/dev/null
        exec /bin/sh "$0" "$@"' "$driver/git-farmdawn" main main~11 -- sh -c "$command" 2>told | tail -n 1)" = "$(first_bad main~4)" ]
    nothing_left
}

# A test that leaves its checkout otherwise than it was is told, and the next one has its own commit.
needs_left_by_tests() { needs_all; }
test_left_by_tests() {
    make_line 12 7
    # what a test leaves in its checkout, and looks for at its beginning
    # shellcheck disable=SC2016
    leaves='test "$(git rev-parse HEAD)" = "$FARMDAWN_COMMIT" || exit 255
        git bisect log >/dev/null 2>&1 && exit 255
        test -e content || exit 255
        test ! -e bug; status=$?; eval "$0"; exit $status'
    # its files, its index and its own configuration are its own to change
    for way in 'git rm -q -r .' 'rm -rf *' 'rm -rf .git' 'git merge -q -s ours --no-commit main >/dev/null 2>&1'; do
        expect "the answer where each does $way" [ "$(answer_of git farmdawn --workers 2 main main~11 -- sh -c "$leaves" "$way")" = "$(first_bad main~4)" ]
    done
    # a checkout of another commit, commits, a bisect, a rebase and a branch of their own: no verdict is believed
    for way in 'git checkout -q main~1' 'git commit -q --allow-empty -m own' \
        'git bisect start -q HEAD HEAD~1 >/dev/null 2>&1; git checkout -q HEAD~1' 'echo x >content; git commit -q -a -m x; git rebase -q --onto HEAD~2 HEAD~1 >/dev/null 2>&1' \
        'git checkout -q --orphan new'; do
        git farmdawn --workers 2 main main~11 -- sh -c "$leaves" "$way" >log 2>told
        expect "no answer where each does $way" [ $? -eq 6 ]
        expect 'a line that says why' grep -q 'what it told is not believed' told
        # shellcheck disable=SC2016
        expect 'the answer once they put it right' [ "$(answer_of git farmdawn --workers 2 main main~11 -- sh -c "$leaves" "(cd / && :)")" = "$(first_bad main~4)" ]
    done
    # its configuration is its checkout's alone
    expect 'the answer where each changes how checkouts are made' \
        [ "$(answer_of git farmdawn --workers 2 main main~11 -- sh -c "$leaves" 'git config core.sparseCheckout true')" = "$(first_bad main~4)" ]
    expect 'nothing of that in the repository' [ -z "$(git config core.sparseCheckout)" ]
    nothing_left
}

# Words with blanks and signs are right, or refused before anything is tested.
needs_odd_words() { needs_all; }
test_odd_words() {
    make_line 6 3
    for term in 'broken p5' '*' "it's" 'a b' 'back\slash' '' '-x' '$(touch ../tested)' 'umläut' '..' 'a..b' '--skip' 'bad' 'start'; do
        git farmdawn --term-old "$term" main main~5 -- touch ../tested >log 2>told
        expect "no term: $term" [ $? -eq 1 ]
        expect 'which is told in a line' [ "$(wc -l <told)" -eq 1 ]
    done
    for skip in 'main p2' '*' '--output=../tested' '--all' '' 'main..--output=../tested' '--stdin..main' 'main~1 main~2' '^main' '..none' 'none..'; do
        git farmdawn --skip "$skip" main main~5 -- touch ../tested >log 2>told
        row expect "no skip: $skip" [ "$(($? == 1 || $? == 8))" -eq 1 ]
        row expect 'which is told in a line' [ "$(wc -l <told)" -eq 1 ]
    done
    for limit in '' 0 1x 10m -1 1.5M; do
        expect "no size: $limit" sh -c '! git farmdawn --log-limit "$1" main main~5 -- touch ../tested 2>told' sh "$limit"
    done
    printf 'exit 0\n' >"new
line"
    expect 'a path with a line break is refused' sh -c '! git farmdawn main main~5 -- sh "new
line" 2>told'
    expect 'nothing was tested' [ ! -e ../tested ]
    nothing_left
}

# A repository whose path has a backslash, blanks, a sign of the shell, and a byte that is no UTF-8.
needs_odd_paths() { needs_all; }
test_odd_paths() {
    odd=$(printf "back\\\\slash\\\\tn %% * \344 \"q\" 'r' \$(x) [a] \303\274")
    mkdir "$odd" && cd "$odd" || exit 1
    make_line 12 7
    echo 'test ! -e bug' >"$odd.sh" && mkdir "$odd" && echo 'test ! -e ../bug' >"$odd/in.sh"
    expect 'the answer' [ "$(answer_of git farmdawn main main~11 -- sh -c "$command")" = "$(first_bad main~4)" ]
    expect 'by a script of such a name' [ "$(answer_of git farmdawn main main~11 -- sh "$odd.sh")" = "$(first_bad main~4)" ]
    expect 'by --copy, and --log-dir' [ "$(answer_of git farmdawn --copy "$odd" --log-dir "../$odd" main main~11 -- sh -c 'cd "$0" && sh in.sh' "$odd")" = "$(first_bad main~4)" ]
    expect 'the outputs are there' [ "$(ls "../$odd" | wc -l)" -ge 4 ]
    # what is copied must not change meanwhile, so that nothing is written there
    expect 'in such a folder' [ "$(cd "$odd" && git farmdawn --copy "../$odd" main main~11 -- sh in.sh 2>/dev/null | tail -n 1)" = "$(first_bad main~4)" ]
    nothing_left
}

# An output that takes nothing, or is closed: status 13, and one line that says why.
needs_lost_output() { needs_all && missing=/dev/full && [ -c /dev/full ]; }
test_lost_output() {
    make_line 12 7
    git farmdawn main main~11 -- sh -c "$command" >due 2>told
    git farmdawn main main~11 -- sh -c "$command" >/dev/full 2>told
    expect 'a full output' [ $? -eq 13 ]
    expect 'is told in one line, with the file that has the log' [ "$(sed -n 's/.*the standard output cannot be written; the log is in //p' told | wc -l)" -eq 1 ]
    expect 'which has it' cmp due "$(sed -n 's/.*; the log is in //p' told)"
    expect 'and nothing else of it' [ "$(grep -c rror told)" -eq 0 ]
    git farmdawn --fresh main main~11 -- sh -c "$command" >&- 2>told
    expect 'a closed output' [ $? -eq 13 ]
    expect 'before anything is tested' [ "$(cat told)" = 'git farmdawn: the standard output is closed; nothing was tested' ]
    for bytes in 1 100 700; do
        { git farmdawn main main~11 -- sh -c "$command" 2>told; echo $? >status; } | head -c $bytes >got
        case $(cat status) in 13) ;; *) expect 'all fitted into the pipe' [ "$(cat status)" = 0 ] ;; esac
    done
    { (trap '' PIPE && sleep 0.3 && git farmdawn main main~11 -- sh -c "$command" 2>told); echo $? >status; } | true
    expect 'a reader that went away' [ "$(cat status)" = 13 ]
    git farmdawn main main~11 -- sh -c "$command" 2>&- >log
    expect 'without a standard error' cmp log due
    git farmdawn main main~11 -- sh -c "$command" 2>/dev/full >log
    expect 'or with a full one' cmp log due
    git farmdawn main main~11 -- sh -c "$command" <&- 2>told >log
    expect 'without an input' cmp log due
    nothing_left
}

# A disk that is full: that of all, or of the outputs alone; in the middle, and at the start. No verdict comes of it, one line
# says which, and the same line goes on when there is room.
needs_full_disk() { needs_all && has unshare mount && missing='a user who may mount' && unshare -m mount -t tmpfs none /mnt; }
test_full_disk() {
    for way in all outputs; do
        mkdir $way
        unshare -m sh -c '. "${0%/*}/helpers.sh" && trap "" EXIT && farmdawn=$1 && cd "$2" && full_disk $3' "$top/tests/sh" "$farmdawn" "$PWD/$way" $way || exit 1
    done
}

# A search with skips beside git bisect run, with the same words.
skip_as_git() {
    range=$1
    shift
    git farmdawn "$@" --workers 2 --skip "$range" main main~1480 -- sh -c "$command" >log 2>told
    expect 'each is in the log once' [ "$(sed -n 's/^git bisect skip //p' log | sort -u | wc -l)" -eq "$(git rev-list --count "$range")" ]
    expect 'and was tested never' [ "$(grep -c ': testing' told)" -lt 16 ]
    bisected="$(git bisect start "$@" main main~1480 && git bisect skip "$range" && git bisect run sh -c "$command")"
    git bisect reset >/dev/null 2>&1
    expect 'the commits that git is left with' [ "$(printf '%s\n' "$bisected" | grep -xE '[0-9a-f]{40}' | sort)" = "$(grep -xE '[0-9a-f]{40}' log | sort)" ]
    git bisect replay log >/dev/null 2>&1
    expect 'git bisect replay takes the log' [ "$(($? == 0 || $? == 2))" -eq 1 ]
    git bisect reset >/dev/null 2>&1
}

# Many skips are known to the engine from the start, however many lines of requests they take: those of the last search take two.
needs_many_skips() { needs_all; }
test_many_skips() {
    git init -q -b main repository && cd repository || exit 1
    awk 'BEGIN { for (i = 1; i <= 1500; i++) {
        printf "commit refs/heads/main\ncommitter gen <gen> %d +0000\ndata 2\nc\n", i
        if (i == 1400) print "M 100644 inline bug\ndata 0\n" } }' | git fast-import --quiet && git reset -q --hard || exit 1
    skip_as_git main~150..main~20
    skip_as_git main~150..main~20 --term-new fixed --term-old broken
    skip_as_git main~1470..main~180 --term-new fixed --term-old broken
    nothing_left
}

# However many tests there are, the program is run once.
needs_few_programs() { needs_all; }
test_few_programs() {
    make_line 40 30
    printf '#!/bin/sh\necho "$1" >>"%s"\nexec "%s" "$@"\n' "$PWD/../runs" "$farmdawn" >../counting && chmod +x ../counting
    for ends in 'main main~2' 'main main~39'; do
        # shellcheck disable=SC2086
        FARMDAWN=$PWD/../counting git farmdawn --fresh --workers 8 $ends -- sh -c "$command" >log 2>told
        row expect 'the runs of the program' [ "$(cat ../runs)" = serve ]
        rm ../runs
    done
}

# Where a test stops the search, the end of its output is told.
needs_stops() { needs_all; }
test_stops() {
    make_line 8 4
    git farmdawn --workers 1 main main~7 -- sh -c 'for line in 1 2 3 4 5 6 7 8 9 10 11; do echo "line $line"; done; exit 255' >log 2>told
    expect 'the search stops' [ $? -eq 6 ]
    stopper=$(sed -n 's/^bisect aborted: exit 255 on //p' log)
    expect 'the file of the output' grep -q "$stopper stopped the search; the last lines of $PWD/.git/farmdawn/results-.*/$stopper.log:" told
    expect 'its ten last lines' [ "$(grep -c '^    line ' told)" -eq 10 ]
    git farmdawn --workers 1 main main~7 -- nowhere-to-be-found >log 2>told
    expect 'a command that is not there' grep -q '^    .*nowhere-to-be-found' told
    git init -q -b main ../inner && (cd ../inner && git commit -q --allow-empty -m inner) && cd . &&
        git -c protocol.file.allow=always submodule add -q "$PWD/../inner" inner && git commit -q -m inner &&
        git commit -q --allow-empty -m last && git commit -q --allow-empty -m last || exit 1
    rm -rf ../inner .git/modules # nor does the repository have it
    git farmdawn --submodules --workers 1 main main~3 -- true >log 2>told
    expect 'a commit that cannot be checked out' [ $? -eq 6 ]
    expect 'with the reason' grep -q "^    .*inner" told
    nothing_left
}

# Where all tests are skipped, or take too long, a line says that something may be wrong; and one tells of a long test.
needs_warnings() { needs_all && has timeout; }
test_warnings() {
    make_line 30 4
    git farmdawn --workers 2 main main~29 -- sh -c 'exit 125' >log 2>told
    expect 'ten skips are told once' [ "$(grep -c 'ten tests one after the other were skipped' told)" -eq 1 ]
    git farmdawn --workers 2 main main~29 -- sh -c '[ $(($(cat content) % 5)) = 0 ] || exit 125; test ! -e bug' >log 2>told
    expect 'a good one between them is right' [ "$(grep -c 'ten tests' told)" -eq 0 ]
    git farmdawn --timeout 2 --workers 4 main main~5 -- sleep 600 >log 2>told
    expect 'tests that all take too long are told once' [ "$(grep -c 'each test so far took longer than 2 s' told)" -eq 1 ]
    # what it waits for is no word of the command: such a file must not change
    # shellcheck disable=SC2016
    TOLD=$PWD/../told FARMDAWN_WATCH=1 git farmdawn --fresh main main~29 -- sh -c '
        until grep -q "farmdawn: [0-9a-f]\{12\} has run for [1-9][0-9]* s$" "$TOLD"; do sleep 0.1; done
        test ! -e bug' >log 2>../told
    expect 'and how long one runs' [ $? -eq 0 ]
    nothing_left
}

# A test that hangs is not waited for where the answer is known without it. No other one ends before one hangs; those that hang are of
# commits that one at a time never asks for.
needs_hanging() { needs_all && has pgrep; }
test_hanging() {
    make_line 12 7
    # shellcheck disable=SC2016
    expect 'the answer' [ "$(answer_of git farmdawn --workers 8 main main~11 -- sh -c '[ $(cat content) -le 8 ] || { touch "$0/hung"; $1; }
        while [ -e "$0" ] && [ ! -e "$0/hung" ]; do sleep 0.1; done; test ! -e bug' "$PWD/.." "$long_sleep")" = "$(first_bad main~4)" ]
    expect 'a test hung' [ -e ../hung ]
    nothing_left
    nothing_sleeps
}

# The output that is kept has a limit.
needs_log_limit() { needs_all; }
test_log_limit() {
    make_line 8 4
    git farmdawn --workers 1 --log-limit 10k --log-dir ../logs main main~7 -- sh -c 'echo begin; head -c 50000 /dev/zero | tr "\0" x; echo end; test ! -e bug' >log 2>told
    expect 'the answer' [ "$(tail -n 1 log)" = "$(first_bad main~3)" ]
    for kept in ../logs/*.log; do
        expect 'not much more is kept' [ "$(wc -c <"$kept")" -lt 10200 ]
        expect 'of the begin and the end' [ "$(head -n 1 "$kept") $(tail -n 1 "$kept" | tail -c 4)" = 'begin end' ]
        expect 'with a line of what is not' grep -qx 'git farmdawn: 40010 bytes are cut out here (--log-limit)' "$kept"
    done
    git farmdawn --workers 1 main main~7 -- sh -c 'head -c 50000 /dev/zero; test ! -e bug' >log 2>told
    expect 'without it all of that' [ "$(find .git/farmdawn -name '*.log' -size +48 | wc -l)" -ge 3 ]
}

# --prune removes what is kept, but for that of a search that runs.
needs_prune() { needs_all; }
test_prune() {
    make_line 8 4
    mkdir -p .git/farmdawn/run.elsewhere victim && ln -s "$PWD/victim" .git/farmdawn/results-victim && touch victim/lock || exit 1
    git farmdawn main main~7 -- sh -c "$command" >log 2>told
    # shellcheck disable=SC2016
    git farmdawn main main~7 -- sh -c 'touch "$0/began"; while [ -e "$0" ] && [ ! -e "$0/on" ]; do sleep 0.1; done; test ! -e bug' "$PWD/.." >log 2>told &
    wait_beside $! [ -e ../began ]
    expect 'one is removed' [ "$(git farmdawn --prune 2>&1)" = 'git farmdawn: removed what 1 search had kept' ]
    expect 'the other is not' [ "$(find .git/farmdawn -name 'results-*' -type d | wc -l)" -eq 1 ]
    touch ../on
    wait $!
    expect 'and has its answer' [ "$(tail -n 1 log)" = "$(first_bad main~3)" ]
    git farmdawn --prune 2>/dev/null
    expect 'then it is' [ "$(ls .git/farmdawn)" = 'results-victim
run.elsewhere' ]
    expect 'nothing elsewhere is' [ -e victim/lock ]
    rm -r .git/farmdawn/run.elsewhere
    nothing_left
}

# What is needed and not here is named at once.
needs_tools() { needs_all; }
test_tools() {
    make_line 4 2
    mkdir ../bin
    # what stands first on the path is there when others of its name come
    IFS=:
    for folder in $PATH; do ln -s "$folder"/* ../bin; done 2>/dev/null
    unset IFS
    PATH=$PWD/../bin
    expect 'all is here' [ "$(answer_of git farmdawn main main~3 -- sh -c "$command")" = "$(first_bad main~1)" ]
    mkdir ../away && for tool in flock setsid setpriv sha256sum mkfifo awk sed; do mv ../bin/$tool ../away; done
    expect 'these are not needed' git farmdawn --fresh main main~3 -- sh -c "$command" >log 2>told
    mv ../away/* ../bin
    printf '#!/bin/sh\n[ "$1" = serve ] || exec "%s" "$@"\necho "usage fault at word 1"\necho "farmdawn: serve, and no further word" >&2\nexit 1\n' "$farmdawn" >../old && chmod +x ../old
    FARMDAWN=$PWD/../old git farmdawn --fresh main main~3 -- touch ../tested >log 2>told
    expect 'a program of another version is named' [ "$? $(grep -c 'is of another version: git farmdawn needs its `serve --original-names`' told)" = '1 1' ]
    expect 'in one line' [ "$(grep -vc 'commits* to search' told)" -eq 1 ]
    # which repeats what it does not know
    mv ../bin/git ../aside && printf '#!/bin/sh\ncase $1 in version) echo git version 2.30.9 && exit ;; rev-parse) printf "%%s\\n" "$@" | grep path-format ;; esac\nexec "%s" "$@"\n' "$(readlink ../aside)" >../bin/git && chmod +x ../bin/git
    "$driver/git-farmdawn" main main~3 -- touch ../tested >log 2>told
    expect 'an old git is named' [ "$? $(cat told)" = '1 git farmdawn: git from 2.31 on is needed, and this is git version 2.30.9' ]
    expect 'nothing was tested' [ ! -e ../tested ]
    nothing_left
}

# A log that cannot be opened stops the search, and is no verdict.
needs_lost_log() { needs_all; }
test_lost_log() {
    make_line 8 4
    mkdir -p "../logs/$(git rev-parse main~3).log"
    git farmdawn --workers 1 --log-dir ../logs main main~7 -- sh -c "$command" >log
    expect 'the search stops' [ $? -eq 6 ]
    expect 'by this test' grep -q "^bisect aborted: exit 255 on $(git rev-parse main~3)$" log
    nothing_left
}

# Words that are wrong are told before anything is run, and leave nothing.
needs_wrong_words() { needs_all; }
test_wrong_words() {
    make_line 3 1
    for words in '--workers 0' '--workers 65' '--workers x' '--workers 01' '--timeout 0' '--timeout -1' '--nothing' '--skip nowhere' '--copy nowhere' '--path nowhere' '--term-new nowhere --term-old nowhere'; do
        # shellcheck disable=SC2086
        row expect "a fault: $words" sh -c '! git farmdawn "$@" main main~2 -- touch ../tested >out 2>err' sh $words
        row expect 'nothing on standard output' [ ! -s out ]
        row expect 'a line on standard error' [ "$(grep -vc 'commits to search' err)" -eq 1 ]
    done
    expect 'no such commit' sh -c '! git farmdawn main nowhere -- touch ../tested'
    expect 'no command' sh -c '! git farmdawn main main~2 --'
    expect 'no test was run' [ -z "$(find .. -name tested)" ]
    nothing_left
}

needs_check_ends() { needs_all; }
test_check_ends() {
    make_line 6 3
    expect 'good ends pass' git farmdawn --check-ends main main~5 -- sh -c "$command"
    expect 'a good commit that is bad stops' sh -c '! git farmdawn --check-ends main main~1 -- test ! -e bug >log 2>err'
    expect 'and is named' grep -q "$(git rev-parse main~1) was called good" err
    nothing_left
}

needs_interrupts() { needs_all && has pgrep; }
test_interrupts() {
    make_line 200 120
    for pause in 0.05 0.1 0.2 0.3 0.5 0.7 1 1.3 1.6 2; do
        git farmdawn --fresh --workers 16 main main~199 -- sh -c "$long_sleep & sleep 0.2; test ! -e bug" >log 2>err &
        sleep $pause
        kill -TERM $!
        wait $!
        soon_nothing_left
    done
    nothing_sleeps
}

long='interrupts many_skips left_by_tests'
run_test "$@"
