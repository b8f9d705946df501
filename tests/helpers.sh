# What the tests of the scripts share. Each test is a function named test_..; it runs in a folder of its own. A function
# needs_.. with the same name stands before it, and says whether the test can run here; what is missing passes the test over,
# and is told by its name. tests/check.py runs them, each by its file and its name; those that a file names in `long` begin first.
# FARMDAWN_DRIVER names the folder of another git-farmdawn than that of this checkout.
set -u
top=$(cd "$(dirname "$0")/.." && pwd)
driver=${FARMDAWN_DRIVER:-$top/driver/bin}
PATH=$driver:$top/tools:$PATH
farmdawn=${FARMDAWN:-$top/crates/farmdawn/out/farmdawn}
needs=${FARMDAWN_NEEDS:-/var/cache/farmdawn-tests} # what tests/needs has brought
export PATH
export GIT_AUTHOR_NAME='Ann Lee' GIT_AUTHOR_EMAIL=ann@example.org GIT_COMMITTER_NAME=Bo GIT_COMMITTER_EMAIL=bo@example.org
export GIT_CONFIG_SYSTEM=/dev/null GIT_CONFIG_NOSYSTEM=1 LC_ALL=C

work=$(mktemp -d "${FARMDAWN_WORK:-${TMPDIR:-/tmp}}/tests.XXXXXXXX") || exit 1
shared=${FARMDAWN_SHARED:-$work}
trap 'end_shared; rm -rf "$work"' EXIT
export GIT_CONFIG_GLOBAL="$work/gitconfig"
printf '[core]\n\tfsync = none\n' >"$GIT_CONFIG_GLOBAL" # what is made here need not outlast the machine
# farmdawn takes only words that are UTF-8, its own name with them
if [ -x "$farmdawn" ] && ! "$farmdawn" --version >/dev/null 2>&1; then ln -s "$farmdawn" "$work/farmdawn" && farmdawn=$work/farmdawn; fi
long_sleep="sleep 777.$$s" # of this run alone: other tests may run beside it

# Whether a test fails here: the text says what is not as it must be.
expect() {
    text=$1
    shift
    "$@" && return
    echo "not so: $text ($*)"
    exit "$failing"
}
failing=1

# In front of an expectation that a clock decides: where it is not so, tests/check.py tries the test once more. No other is. Before
# you add one, let the test wait for a condition, or take the next of $limits.
by_clock() {
    failing=$clock_decided
    "$@"
    failing=1
}
clock_decided=75
# A test ends so where it, or a part of it, cannot run here; the last line that begins with `passed over: ` says why.
passed_over=77
# Limits of seconds for what must be over in time here, however busy the machine is: the next one where the last was too short.
limits='5 20 80 320'

# A row of a table, by the words: where it fails, the test goes on with the others, and fails in the end.
row() {
    ("$@")
    row_ended=$?
    [ $row_ended -eq 0 ] || echo $row_ended >>"$work/rows"
}

# Whether these commands are installed; the first that is not is told.
has() {
    for tool; do
        command -v "$tool" >/dev/null || { missing=$tool && return 1; }
    done
}

# What was written, the file `got`, is a front of what was due.
is_front() {
    expect 'a front of the text that was due' [ "$(cmp got due 2>&1 | sed '/: EOF on .*got/d')" = '' ]
}

# The program was built.
has_program() {
    missing='a built farmdawn'
    [ -x "$farmdawn" ]
}

# It has all commands: the model of `serve` hands the others on to a program that may lack.
has_all_commands() {
    has_program || return
    missing='a built farmdawn'
    "$farmdawn" --version >/dev/null 2>&1 || return 1
}

# A Slurm is at hand: the one that SLURM_CONF names; or else one of this run, which is started where a test asks for it first, in a
# folder whose name a configuration can have without quotes.
has_slurm() {
    has srun sinfo squeue scancel flock || return 1
    if [ -z "${SLURM_CONF-}" ]; then
        (PATH=$PATH:/usr/sbin:/sbin && has slurmctld slurmd munged) || { missing='SLURM_CONF, or slurmctld, slurmd and munged,' && return 1; }
        missing='a Slurm that starts'
        SLURM_CONF=$(slurm_folder)/slurm.conf || return 1
        export SLURM_CONF
    fi
    missing='a Slurm that answers'
    [ -n "$(sinfo -h -t idle,mixed,allocated -o %N 2>/dev/null)" ]
}

# The folder of the Slurm of this run. The tests that tests/check.py runs share one, which it ends.
slurm_folder() {
    flock -x 9 || return 1
    [ -s "$shared/slurm" ] || start_slurm 4 8 >"$shared/slurm" || return 1
    cat "$shared/slurm"
} 9>"$shared/slurm.lock"

# Starts a Slurm of so many nodes with so many processors each, and prints its folder.
start_slurm() { new=$(TMPDIR=/tmp mktemp -d) && sh "$top/tests/slurm" start "$new" "$1" "$2" 9>&- >&2 && echo "$new"; }

# Ends what the tests of this file shared.
end_shared() { [ -n "${FARMDAWN_SHARED-}" ] || [ ! -s "$shared/slurm" ] || sh "$top/tests/slurm" stop "$(cat "$shared/slurm")"; }

# Runs the test that is named, in a new folder, if it can run here. A signal that ends it has it leave as otherwise, so that what it
# started is ended. With PASSED_OVER set it is only asked whether it can run.
run_test() {
    test=$1
    command -v "test_$test" >/dev/null || { echo "test_$test is not there" && exit 1; }
    missing='what it needs'
    needs_"$test" 2>/dev/null
    case $? in
    0) ;;
    127) # else a misspelt name would pass it over for ever
        echo "needs_$test is not there, or calls what is not"
        exit 1
        ;;
    *)
        echo "passed over: $missing is not here"
        exit $passed_over
        ;;
    esac
    [ -z "${PASSED_OVER-}" ] || exit 0
    mkdir "$work/$test" || exit 1
    (trap 'exit 129' HUP && trap 'exit 130' INT && trap 'exit 143' TERM && cd "$work/$test" && "test_$test")
    ended=$?
    [ $ended -ne 0 ] || [ ! -e "$work/rows" ] || ended=$(sort -n "$work/rows" | head -n 1)
    chmod -R u+w "$work/$test" 2>/dev/null
    rm -rf "${work:?}/$test"
    exit $ended
}

# A repository in the folder `repository` with so many commits, of which those from BAD on have a file `bug`.
make_line() {
    git init -q -b main repository && cd repository || exit 1
    awk -v commits="$1" -v bad="$2" 'BEGIN { for (i = 0; i < commits; i++) {
        printf "commit refs/heads/main\nauthor %s <%s> now\ncommitter %s <%s> now\n", ENVIRON["GIT_AUTHOR_NAME"],
            ENVIRON["GIT_AUTHOR_EMAIL"], ENVIRON["GIT_COMMITTER_NAME"], ENVIRON["GIT_COMMITTER_EMAIL"]
        printf "data <<END\nchange %d\nEND\nM 100644 inline content\ndata <<END\n%d\nEND\n", i, i
        if (i == bad) print "M 100644 inline bug\ndata <<END\nbug\nEND" } }' |
        git fast-import --quiet --date-format=now && git reset -q --hard || exit 1
}

# The first bad commit by git bisect run, over the same words.
git_answer() {
    git bisect start "$@" >/dev/null 2>&1
    [ -z "${skip-}" ] || git bisect skip "$skip" >/dev/null 2>&1
    git bisect run sh -c "$command" >bisect-output 2>&1
    git rev-parse "refs/bisect/${new_term:-bad}"
    git bisect reset >/dev/null 2>&1
}

# The last line that a command prints, and the answer that names a commit.
answer_of() { "$@" 2>told | tail -n 1; }
first_bad() { echo "$(git rev-parse "$1") is the first bad commit"; }

# Waits until a command succeeds. Where it does not within ten minutes, it is told as what is not so; what it printed last is shown.
wait_until() {
    awaited=$1 turns=0
    shift
    until "$@" >"$work/awaited"; do
        turns=$((turns + 1))
        [ $turns -lt 6000 ] || { cat "$work/awaited" && expect "$awaited" false; }
        sleep 0.1
    done
}

# Waits until a command succeeds, as long as the process that is named before it runs.
wait_beside() {
    beside=$1
    shift
    until "$@"; do
        if ! kill -0 "$beside" 2>/dev/null; then
            "$@" && return
            expect "it goes on until $*" false
        fi
        sleep 0.05
    done
}

# No process runs whose words have this.
none_runs() { [ -z "$(pgrep -f "$1")" ]; }

# No process runs on whose words have the sleep of this run. One that was sent a signal may be seen for a while longer.
nothing_sleeps() { wait_until 'no test runs on' none_runs "$long_sleep"; }

# Nothing of a run is left: no worktree but the main one, no folder of a run.
nothing_left() {
    expect 'one worktree' [ "$(git worktree list | wc -l)" -eq 1 ]
    expect 'no folder of a run' [ -z "$(ls -d .git/farmdawn/run.* 2>/dev/null)" ]
}

# The same soon: `git` that gets a signal before it has noted its command ends, and the command a moment later.
is_left() { [ "$(git worktree list | wc -l)" -ne 1 ] || ls -d .git/farmdawn/run.* 2>/dev/null; }
is_nothing_left() { ! is_left; }
soon_nothing_left() { wait_until 'nothing is left' is_nothing_left; }

# A search in a repository on a small disk, or with its outputs there: each test prints 2 MB, and fails where it cannot.
full_disk() {
    export FARMDAWN="$farmdawn"
    full=$PWD/full aside=$PWD
    mkdir full && mount -t tmpfs -o size=4m none full || exit 1
    if [ "$1" = all ]; then cd full || exit 1; else log_dir="--log-dir $full"; fi
    make_line 12 7
    # shellcheck disable=SC2086
    set -- git farmdawn --workers 2 ${log_dir-} main main~11 -- sh -c 'head -c 2000000 /dev/zero || exit 1; test ! -e bug'
    "$@" >"$aside/log" 2>"$aside/told"
    expect 'a full disk is no verdict' [ $? -eq 14 ]
    expect 'one line says which' [ "$(grep -c 'no room in' "$aside/told")" -eq 1 ]
    expect 'and no other of it' sh -c '! grep -q "rror\|annot\|awk" "$0"' "$aside/told"
    expect 'the log so far' grep -q '^git bisect start' "$aside/log"
    expect 'without an answer' sh -c '! grep -q "is the first" "$0"' "$aside/log"
    nothing_left
    find "$full" -name '*.log' -exec rm {} +
    head -c 5000000 /dev/zero >"$full/fill" 2>/dev/null
    "$@" >"$aside/log" 2>"$aside/told"
    expect 'nor is one at the start' [ $? -eq 14 ]
    expect 'told in one line' [ "$(grep -vc ': stopped' "$aside/told")" -eq 1 ]
    rm "$full/fill" && mount -o remount,size=60m "$full" || exit 1
    "$@" >"$aside/log" 2>"$aside/told"
    expect 'the same line has the answer' [ "$(tail -n 1 "$aside/log")" = "$(git rev-parse main~4) is the first bad commit" ]
    nothing_left
}
