#!/bin/sh
# Tests of the report of git farmdawn, which tests/report.py reads field by field.
. "$(dirname "$0")/helpers.sh"
FARMDAWN=$farmdawn
export FARMDAWN

needs_all() { has git python3 && has_program; }

# The report is whole, and has the facts of the log and what is named.
report_is() { python3 "$top/tests/report.py" ../report "$@"; }

command='echo "tested $FARMDAWN_COMMIT"; test ! -e bug'

needs_facts() { needs_all && has_all_commands; }
test_facts() {
    make_line 40 17
    git farmdawn --workers 4 --report ../report --first-parent main main~39 -- sh -c "$command" a\'b '' >log 2>told
    expect 'a search' [ $? -eq 0 ]
    expect 'its report' report_is log 'workers=4' 'commits=39' 'status=0' 'state="found"' 'first_parent=true' 'paths=[]' \
        "command=[\"sh\", \"-c\", \"$(printf '%s' "$command" | sed 's/"/\\"/g')\", \"a'b\", \"\"]" "bad=\"$(git rev-parse main)\"" \
        "good=[\"$(git rev-parse main~39)\"]" "repository=\"$PWD\"" "version=\"$("$farmdawn" --version | sed 's/.* //')\""
    for output in ../report/outputs/*.txt; do
        name=${output##*/}
        name=${name%.run2.txt} # of those that were tested alone
        # of one that was ended it may be empty
        [ ! -s "$output" ] || expect 'the output of that commit' [ "$(cat "$output")" = "tested ${name%.txt}" ]
    done
    expect 'the patch' grep -q '>+bug<' ../report/index.html
    # all is known now
    git farmdawn --workers 4 --report ../report --first-parent main main~39 -- sh -c "$command" a\'b '' >log 2>told
    expect 'the same from what is kept' report_is log 'status=0'
    expect 'without a bar' sh -c '! grep -q "\"kept\": false" ../report/result.json'
    expect 'one line says where it is' [ "$(grep 'report' told)" = "git farmdawn: the report is $(cd ../report && pwd -P)/index.html" ]
    nothing_left
}

# How searches end, with the status, the reason, and the words of the search.
ends_so() {
    status=$1 reason=$2
    shift 2
    rm -rf ../report
    git farmdawn --report ../report "$@" >log 2>told
    expect "the status of $*" [ $? -eq "$status" ]
    # before a search nothing is printed
    [ -s log ] || cat ../report/result.json | python3 -c 'import json, sys; print(*json.load(sys.stdin)["log"], sep="\n")' >log
    expect 'its report' report_is log "status=$status" 'answer=null' "reason=\"$reason\""
}

needs_ends() { needs_all; }
test_ends() {
    make_line 12 7
    git checkout -q -b side main~8 && echo side >side && git add -A && git commit -q -m side && git checkout -q main || exit 1
    stopper=$(git rev-parse main~6) bad_good=$(git rev-parse main~1)
    ends_so 2 'only skipped commits are left' --trust-ends --skip main~11..main~1 main main~11 -- true
    ends_so 3 'a merge base is broken' --trust-ends --term-new broken --term-old well main side -- false
    ends_so 4 'a good commit is no ancestor of the bad one' main~5 main -- true
    ends_so 5 'one commit is both bad and good' main main -- true
    ends_so 6 "the test of $stopper stopped the search: exit 255" --workers 1 main main~11 -- sh -c 'echo "<b>&amp;"; exit 255'
    expect 'with what it printed' grep -q '&lt;b&gt;&amp;amp;' ../report/index.html
    ends_so 1 "$bad_good was called good, and its test ended with 1" --check-ends main main~1 -- sh -c "$command"
    nothing_left
}

# A search that runs has a report that says so, and one that is stopped has another.
needs_stops() { needs_all; }
test_stops() {
    make_line 20 9
    # shellcheck disable=SC2016
    FARMDAWN_WATCH=1 git farmdawn --workers 3 --report ../report main main~19 -- sh -c 'echo x >>"$0/tested"
        while [ -e "$0" ] && [ ! -e "$0/on" ] && [ "$(wc -l <"$0/tested")" -ge 3 ]; do sleep 0.1; done
        test ! -e bug' "$PWD/.." >log 2>told &
    wait_beside $! grep -q '"outcome": "running"' ../report/result.json 2>/dev/null
    # its two files are written one after the other
    wait_until 'the report of one that runs' report_is - 'state="running"' 'status=null' 'ended=null' 'answer=null' 'reason="the search runs"'
    kill -TERM $!
    wait $!
    expect 'it was stopped' [ $? -eq 143 ]
    expect 'its report' report_is log 'state="stopped"' 'status=143' 'answer=null' 'reason="stopped by a signal"'
    expect 'tests were ended' grep -q '"outcome": "ended"' ../report/result.json
    nothing_left
}

# A line of commits whose subjects, paths, contents and tests have what a page, a script or a terminal would take for its own.
make_hostile() {
    git init -q -b main repository && cd repository || exit 1
    number=0
    for text in '<script>alert(1)</script>' "<img src=x onerror='alert(1)'>" '&lt;b&gt; &amp; "quoted" \u0041 \"' ']]> --> </style></pre></html>' \
        '\033[31mred\033[0m \033]8;;http://example.org\007link' 'bell \007 back \010 null \\000 \177 \r end' '\377\376 \300\257 \355\240\200 \364\220\200\200 \342\202' \
        '\303\274 \342\202\254 \360\237\230\200 \357\277\277' '\342\200\256nettirw sdrawkcab\342\200\254 \302\205' 'end'; do
        number=$((number + 1))
        # shellcheck disable=SC2059
        printf "$text" | sed 's/%/%%/g' >../text
        # shellcheck disable=SC2059
        { printf "$text\n\n$text\n" >../message; } 2>/dev/null
        printf 'commit refs/heads/main\nauthor a&"%s" <a&> %d +0000\ncommitter c <c> %d +0000\ndata %d\n' "$number" $number $number "$(wc -c <../message)"
        cat ../message
        printf '\nM 100644 inline "path %s \\377<b>&\\"\\033[31m"\ndata %d\n' $number "$(wc -c <../message)"
        cat ../message
        [ $number -lt 7 ] || printf '\nM 100644 inline bug\ndata 1\nb'
        printf '\n'
    done >../stream
    git fast-import --quiet <../stream && git reset -q --hard 2>/dev/null
}

# Each test waits until all have begun, so that all are told; in some locales.
needs_hostile() { needs_all; }
test_hostile() {
    make_hostile
    # shellcheck disable=SC2016
    for locale in C C.UTF-8 tr_TR.UTF-8; do
        rm -rf ../met && mkdir ../met || exit 1
        MET=$PWD/../met LC_ALL=$locale git farmdawn --fresh --workers 9 --report ../report main main~9 -- sh -c \
            'touch "$MET/$FARMDAWN_COMMIT"; until [ "$(ls "$MET" | wc -l)" -ge 8 ]; do sleep 0.1; done
            git log -1 --format=%B; cat path*; head -c 300 /dev/zero; test ! -e bug' "$(printf '<\n&"\\\033\342\202\254\n')" >log 2>told
        row expect "a search in $locale" [ $? -eq 0 ]
        row expect 'its report' report_is log 'status=0'
        row expect 'of most commits' [ "$(grep -c '"commit": ' ../report/result.json)" -ge 8 ]
        row expect 'no tag of a subject' sh -c '! grep -q "<script\|<img\|<b>" ../report/index.html'
        # shellcheck disable=SC2059
        row expect 'and no control character' sh -c '! tr -d "\011\012" <"$0" | grep -q "$(printf "[\001-\037\177]")"' ../report/index.html
    done
    nothing_left
}

# A folder that is none of a report is refused before anything is tested, and left as it is.
needs_folders() { needs_all; }
test_folders() {
    make_line 12 7
    set -- main main~11 -- sh -c 'touch "$0/tested"; test ! -e bug' "$PWD/.."
    mkdir -p ../page ../notes ../outputs/outputs ../linked ../json && echo mine >../page/index.html && echo mine >../notes/notes && echo mine >../outputs/outputs/notes &&
        ln -s ../notes ../linked/outputs && echo '{}' >../json/result.json && echo mine >../file || exit 1
    for folder in page:1 notes:1 outputs:1 linked:1 json:1 file:14 file/below:14 'line
break:1' ../proc/report:14; do
        before=$(find .. ! -path '*/.git/*' ! -name told ! -name log | sort)
        [ "${folder#../}" = "$folder" ] && place=../${folder%:*} || place=/${folder#../} place=${place%:*}
        git farmdawn --report "$place" "$@" >log 2>told
        expect "it is refused: $folder" [ $? -eq "${folder##*:}" ]
        expect 'in a line, and one on its way' [ "$(wc -l <told)" -le 2 ]
        expect 'nothing is printed' [ ! -s log ]
        [ "${folder%break:1}" != "$folder" ] || expect 'all is as before' [ "$(find .. ! -path '*/.git/*' ! -name told ! -name log | sort)" = "$before" ]
    done
    git farmdawn --report ../logs --log-dir ../logs/outputs "$@" >log 2>told
    expect 'the outputs of tests are elsewhere' [ $? -eq 1 ]
    expect 'nothing was tested' [ ! -e ../tested ]
    odd=$(printf "../a 'b\" [c] \344 & <d>")
    mkdir "$odd" && git farmdawn --report "$odd" "$@" >log 2>told
    expect 'a folder with an odd name' [ $? -eq 0 ]
    mkdir "$odd/.farmdawn-report.Ab1234" && echo x >"$odd/.farmdawn-report.Ab1234/result.json" && echo old >"$odd/outputs/0000.txt" || exit 1
    git farmdawn --report "$odd" "$@" >log 2>told
    expect 'an earlier report is replaced' [ $? -eq 0 ]
    mv "$odd" ../report
    expect 'and is whole where it is moved' report_is log 'status=0'
    nothing_left
}

# The disk of the report is full in the middle: the answer stands, a line says that there is no report, and nothing half is there.
full_report() {
    export FARMDAWN="$farmdawn"
    mkdir report && mount -t tmpfs -o size=400k none report || exit 1
    make_line 12 7
    git farmdawn --report ../report main main~11 -- sh -c 'head -c 150000 /dev/zero; test ! -e bug' >log 2>told
    expect 'the status says it' [ $? -eq 14 ]
    expect 'the answer stands' [ "$(tail -n 1 log)" = "$(git rev-parse main~4) is the first bad commit" ]
    expect 'one line says so' [ "$(grep -c 'there is no report: ' told)" -eq 1 ]
    expect 'and no other of it' sh -c '! grep -q "rror\|No space\|awk" told'
    expect 'nothing half is there' [ -z "$(ls -A ../report)" ]
    mount -o remount,size=60m "$PWD/../report" || exit 1
    git farmdawn --report ../report main main~11 -- sh -c 'head -c 150000 /dev/zero; test ! -e bug' >log 2>told
    expect 'the same line has it' [ $? -eq 0 ]
    expect 'whole' report_is log 'status=0'
    head -c 100000000 /dev/zero >../report/fill.txt 2>/dev/null
    mv ../report/fill.txt ../report/outputs/ || exit 1
    git farmdawn --report ../report main main~11 -- touch ../tested >log 2>told
    expect 'a full one is refused at the start' [ "$? $(ls ../tested 2>/dev/null)" = '14 ' ]
}

needs_full() { needs_all && has unshare mount && missing='a user who may mount' && unshare -m mount -t tmpfs none /mnt; }
test_full() {
    # shellcheck disable=SC2016
    unshare -m sh -c '. "${0%/*}/report.sh" && trap "" EXIT && farmdawn=$1 && cd "$2" && full_report' "$top/tests/sh" "$farmdawn" "$PWD"
}

[ "${0##*/}" = report.sh ] || return 0
run_test "$@"
