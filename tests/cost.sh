#!/bin/sh
# Tests of what git farmdawn does for each test of its own: how many programs it starts for one.
# benches/cost.py has what that costs.
. "$(dirname "$0")/helpers.sh"
FARMDAWN=$farmdawn
export FARMDAWN

needs_all() { has git python3 && has_program; }

# A stand-in for a command, which adds its name to the file `runs` and then is that command.
count_runs() {
    mkdir -p ../bin
    for tool; do
        printf '#!/bin/sh\necho %s >>"%s"\nexec %s "$@"\n' "$tool" "$PWD/../runs" "$(command -v "$tool")" >"../bin/$tool" && chmod +x "../bin/$tool"
    done
}

# How often each of some commands is run in a search over so many commits, by one worker: in `runs`; the number of tests, in `tests`.
search_counted() {
    : >../runs
    rm -rf ../logs .git/farmdawn
    PATH=$PWD/../bin:$PATH git farmdawn --fresh --trust-ends --workers 1 --log-dir ../logs main "main~$1" -- true >log 2>told || exit 1
    runs=$(sort ../runs | uniq -c | awk '{ printf "%s=%s ", $2, $1 }')
    tests=$(find ../logs -name '*.log' | wc -l)
}

# So many runs of a command were for each test that the longer search has more. At most as many are due.
at_most() {
    shorter=0 longer=0
    case " $1" in *" $3="*) shorter=${1##*"$3="} shorter=${shorter%% *} ;; esac
    case " $2" in *" $3="*) longer=${2##*"$3="} longer=${longer%% *} ;; esac
    expect "a test is no more than $4 runs of $3 ($shorter and $longer)" [ $((longer - shorter)) -le $(($4 * more)) ]
}

# A test starts one program, whether there are few commits or many: the git that checks out. All else it does by itself.
needs_few_programs() { needs_all; }
test_few_programs() {
    make_line 60 99
    count_runs git date sed awk flock mv rm cat ls setpriv setsid env
    search_counted 3
    few=$runs few_tests=$tests
    search_counted 59
    more=$((tests - few_tests))
    expect 'more tests' [ $more -ge 3 ]
    for due in git:1 date:0 sed:0 awk:0 flock:0 mv:0 rm:0 cat:0 ls:0 setpriv:0 setsid:0 env:0; do at_most "$few" "$runs" "${due%:*}" "${due#*:}"; done
}

run_test "$@"
