#!/bin/sh
# Tests of farmdawn-ssh, with a server of their own on the loopback address.
. "$(dirname "$0")/helpers.sh"

has_ssh() {
    has ssh ssh-keygen flock || return 1
    missing=sshd
    [ -x "$(command -v sshd || echo /usr/sbin/sshd)" ] || return 1
    missing='a login shell of this user'
    case $(getent passwd "$(id -u)") in */nologin | */false) return 1 ;; esac
}

# The folder that sshd of root wants. Each of these servers keeps a lock on it, also one of another checkout; where one of
# them made it, the last one removes it.
hold_folder() {
    until { command exec 6</run/sshd; } 2>/dev/null && flock -s 6 && [ -d /run/sshd ]; do
        if mkdir /run/sshd; then : >/run/sshd/of-a-test; else [ -d /run/sshd ] || exit 1; fi
    done
}

stop_server() {
    kill "$(cat "$server/pid")" 2>/dev/null
    rm -r "$server"
    if flock -n 6 && rm /run/sshd/of-a-test; then rmdir /run/sshd; fi 2>/dev/null
}

# A server with a key of its own, that takes so many connections at once while they begin. Its files have a folder whose
# name a configuration can have without quotes. Where another program has its port, it takes the next one.
start_server() {
    umask 077
    server=$(TMPDIR=/tmp mktemp -d) || exit 1
    ssh-keygen -q -t ed25519 -N '' -f "$server/host" && ssh-keygen -q -t ed25519 -N '' -f "$server/user" || exit 1
    trap stop_server EXIT
    [ "$(id -u)" -ne 0 ] || hold_folder
    port=$((20000 + $$ % 10000)) most=$((port + 20))
    until begin_server "${1:-100}"; do port=$((port + 1)) && [ $port -lt $most ] || exit 1; done
    ssh_options="-p$port -i$server/user -oStrictHostKeyChecking=no -oUserKnownHostsFile=/dev/null -oIdentitiesOnly=yes -oLogLevel=ERROR"
}

begin_server() {
    printf '%s\n' "Port $port" 'ListenAddress 127.0.0.1' "HostKey $server/host" "AuthorizedKeysFile $server/user.pub" 'StrictModes no' \
        "PidFile $server/pid" 'UsePAM no' "MaxStartups $1" >"$server/config"
    "$(command -v sshd || echo /usr/sbin/sshd)" -f "$server/config" 6<&-
}

by_ssh() {
    words=''
    for word in $ssh_options; do words="$words --ssh $word"; done
    # shellcheck disable=SC2086
    farmdawn-ssh --slots "$PWD/slots" $words "$@"
}

status_of() {
    by_ssh --tries 1 "$@" >>output 2>&1
    echo $?
}

# A stand-in for ssh, which reaches all hosts but those whose names begin with `lost`.
stand_in() {
    mkdir bin
    # shellcheck disable=SC2016
    printf '%s\n' '#!/bin/sh' 'while case $1 in -[oE]) ;; *) false ;; esac; do shift 2; done' 'case $1 in lost*) exit 255 ;; esac' 'exec sh -c "$2"' >bin/ssh
    chmod +x bin/ssh
    PATH=$PWD/bin:$PATH
    mkdir tmp
    export TMPDIR="$PWD/tmp"
}

needs_words() { has flock mkfifo timeout; }
test_words() {
    stand_in
    for words in '--tries 0 there' '--tries x there' '--tries 9999999999 there' there:x there:0 there: there:-1 there:1x there:9999999999 :4 :; do
        # shellcheck disable=SC2086
        timeout 60 farmdawn-ssh --slots slots $words -- true name >out 2>err
        row expect "a fault: $words" [ $? -eq 255 ]
        row expect 'a line on standard error' [ "$(grep -c ' want' err)" -eq 1 ]
    done
    timeout 60 farmdawn-ssh --slots slots there:3 -- sh -c 'exit 9' name
    expect 'right words' [ $? -eq 9 ]
    rm slots/there.0 && mkdir slots/there.0
    timeout 60 farmdawn-ssh --slots slots there -- true name
    expect 'a place that cannot be locked is no verdict' [ $? -eq 255 ]
    expect 'nothing is left' [ -z "$(ls tmp)" ]
}

# A test that is ended while it waits for a place.
needs_waiting() { has flock mkfifo; }
test_waiting() {
    stand_in
    mkdir slots
    flock slots/there.0 sh -c 'touch held; while [ -e held ] && [ ! -e off ]; do sleep 0.1; done' &
    wait_until 'the place is held' [ -e held ]
    farmdawn-ssh --slots slots there -- touch tested name &
    has_a_folder() { [ -n "$(ls tmp)" ]; }
    wait_beside $! has_a_folder
    sleep 0.3
    kill -TERM $!
    wait $!
    expect 'no verdict' [ $? -eq 255 ]
    touch off
    expect 'no test was run' [ ! -e tested ]
    expect 'nothing is left' [ -z "$(ls tmp)" ]
}

# The host that lost a test is passed over as long as another one is named, however often each is.
needs_hosts() { has flock mkfifo timeout; }
test_hosts() {
    stand_in
    timeout 60 farmdawn-ssh --slots slots --tries 2 lost lost:2 -- true name 2>err
    expect 'a lost test' [ $? -eq 255 ]
    expect 'which was tried twice' [ "$(grep -c 'was lost on lost' err)" -eq 2 ]
    timeout 60 farmdawn-ssh --slots slots --tries 2 lost lost lost:2 there -- sh -c 'exit 9' name
    expect 'another host tests it' [ $? -eq 9 ]
    FARMDAWN_HOST_FILE=host timeout 60 farmdawn-ssh --slots slots --tries 2 lost there -- true name
    expect 'and is named for the report' [ "$(cat host)" = 'there
was lost on lost, and is started again' ]
    timeout 60 farmdawn-ssh --slots slots --tries 3 lost1 lost2 -- true name 2>err
    expect 'a test that is lost on two' [ $? -eq 255 ]
    expect 'in turns' [ "$(sed -n 's/.* was lost on \(lost[12]\).*/\1/p' err | tr '\n' ' ')" = 'lost1 lost2 lost1 ' ]
}

needs_verdicts() { has_ssh; }
test_verdicts() {
    start_server
    expect 'good' [ "$(status_of 127.0.0.1 -- true name)" = 0 ]
    expect 'bad' [ "$(status_of 127.0.0.1 -- sh -c 'exit 7' name)" = 7 ]
    expect 'skip' [ "$(status_of 127.0.0.1 -- sh -c 'exit 125' name)" = 125 ]
    expect 'its own 255' [ "$(status_of 127.0.0.1 -- sh -c 'exit 255' name)" = 255 ]
    expect 'killed' [ "$(status_of 127.0.0.1 -- sh -c 'kill -9 $$' name)" = 137 ]
    expect 'words with blanks and quotes' [ "$(status_of 127.0.0.1 -- sh -c 'test "$1|$2|$3" = "a b|it'\''s|name"' sh 'a b' "it's" name)" = 0 ]
    expect 'the folder' [ "$(status_of --folder / 127.0.0.1 -- sh -c 'test "$PWD" = /' name)" = 0 ]
    expect 'output goes to standard error' [ -z "$(by_ssh 127.0.0.1 -- echo text name 2>/dev/null)" ]
}

needs_lost_tests() { has_ssh; }
test_lost_tests() {
    start_server
    expect 'no verdict of a host that is not there' [ "$(status_of 127.0.0.77 -- true name)" = 255 ]
    expect 'or a skip' [ "$(status_of --skip-lost 127.0.0.77 -- true name)" = 125 ]
    expect 'no verdict without the folder' [ "$(status_of --folder /nowhere 127.0.0.1 -- true name)" = 255 ]
    by_ssh --tries 2 127.0.0.77 127.0.0.1 -- sh -c 'exit 9' name
    expect 'another host tests it' [ $? = 9 ]
}

needs_interrupts() { has_ssh && has pgrep; }
test_interrupts() {
    start_server
    for pause in 0.2 0.6 1; do
        # shellcheck disable=SC2086
        by_ssh 127.0.0.1 -- $long_sleep name &
        # the script is the only child of the shell that runs the function
        wait_beside $! pgrep -P $! >child
        sleep $pause
        kill -TERM "$(cat child)" 2>/dev/null
        wait $!
    done
    sleep 1
    # what watches the connection on the host has the words of the test, and stays for a while
    wait_until 'no test runs on' none_runs "^$long_sleep"
}

# Hosts that share no files have a clone each, by the recipe of docs/USING.md; here two servers stand for them.
needs_own_clones() { has_ssh && has git && has_program; }
test_own_clones() {
    start_server
    (make_line 16 5) && git clone -q repository one/clone && git clone -q repository two/clone || exit 1
    kill "$(cat "$server/pid")"
    wait_until 'the server has ended' [ ! -e "$server/pid" ]
    for address in 127.0.0.1:one 127.0.0.2:two; do
        sed "s/^ListenAddress .*/ListenAddress ${address%:*}/; s/^PidFile .*/&.${address#*:}/" "$server/config" >"$server/${address#*:}"
        # shellcheck disable=SC2016
        echo "ForceCommand cd '$PWD/${address#*:}' && exec sh -c \"\$SSH_ORIGINAL_COMMAND\"" >>"$server/${address#*:}"
        "$(command -v sshd || echo /usr/sbin/sshd)" -f "$server/${address#*:}" 6<&-
    done
    words=''
    for word in $ssh_options; do words="$words --ssh $word"; done
    export FARMDAWN="$farmdawn" words slots="$PWD/slots"
    cd repository || exit 1
    git farmdawn --workers 2 main main~15 -- sh -c 'exec farmdawn-ssh --slots $slots --folder clone $words 127.0.0.1 127.0.0.2 -- sh -c "
        git fetch -q --tags origin && git checkout -q -f --detach $FARMDAWN_COMMIT && git clean -q -f -d || exit 255
        pwd >>../tested; test ! -e bug"' >../log 2>../told
    ended=$?
    for name in one two; do kill "$(cat "$server/pid.$name")"; done
    expect 'the answer' [ "$ended $(tail -n 1 ../log)" = "0 $(first_bad main~10)" ]
    expect 'tests ran on both' [ -s ../one/tested ] && [ -s ../two/tested ]
}

# A host that takes a connection and says nothing loses its test, and another one has it.
needs_hung() { has_ssh && has python3; }
test_hung() {
    start_server
    python3 -c 'import socket, time
server = socket.socket()
server.bind(("127.0.0.2", '$port'))
server.listen(20)
open("listens", "w").close()
time.sleep(300)' &
    wait_beside $! [ -e listens ]
    by_ssh 127.0.0.2 127.0.0.1 -- sh -c 'exit 9' name 2>err
    expect 'the other host tests it' [ $? -eq 9 ]
    kill $!
    expect 'a line tells that it was lost' grep -q 'the test of name was lost on 127.0.0.2, and is started again' err
}

# A host that refuses connections is waited for, and left out where it takes none. One line tells it, and no test was lost.
needs_left_out() { has_ssh; }
test_left_out() {
    start_server
    FARMDAWN_HOST_FILE=host by_ssh --tries 1 --skip-lost 127.0.0.77 -- true name 2>err
    expect 'a skip where there is no host' [ $? -eq 125 ]
    expect 'which was lost three times' [ "$(grep -c 'leaves 127.0.0.77 out for 10 minutes' err)" -eq 1 ]
    expect 'no test was lost' sh -c '! grep "was lost on" host'
    by_ssh --tries 1 127.0.0.77 127.0.0.1 -- sh -c 'exit 9' name 2>err
    expect 'another host' [ "$? $(grep -c 127.0.0.77 err)" = '9 0' ]
}

needs_many() { has_ssh; }
test_many() {
    start_server 4:30:100
    number=0
    while [ $number -lt 24 ]; do
        (
            by_ssh --tries 1 127.0.0.1:12 -- sh -c 'sleep 0.1; exit $(($1 % 3))' sh "$number" 2>>errors
            [ $? -eq $((number % 3)) ] || echo "$number" >>wrong
        ) &
        number=$((number + 1))
    done
    wait
    expect 'each verdict is right' [ ! -e wrong ]
}

# A stand-in for ssh that says what this file has as what the host told, with the token for TOKEN.
stand_in_told() {
    stand_in
    # shellcheck disable=SC2016
    printf '%s\n' '#!/bin/sh' 'for word; do :; done' 'token=$(printf "%s\n" "$word" | grep -o "farmdawn-status-[A-Za-z0-9]*" | head -n 1)' \
        'sed "s/TOKEN/$token/" <"$TOLD"' >bin/ssh
    export TOLD="$PWD/told"
}

# A status is one whole line; whatever else came is a lost test.
needs_answers() { has flock mkfifo timeout grep; }
test_answers() {
    stand_in_told
    while IFS= read -r told; do
        printf '%b' "$told" >told
        rm -rf slots # a host that lost three tests is left out
        timeout 60 farmdawn-ssh --slots slots --tries 1 there -- true name 2>err
        row expect "no verdict of what was told: $told" [ $? -eq 255 ]
        row expect 'which is told' grep -q 'was lost on there' err
    done <<'END'

TOKEN 0
TOKEN 0 ended
TOKEN 7 ended\nTOKEN 7 ended\n
TOKEN 7\nTOKEN 7\n
TOKEN 7 ended\nTOKEN 0 ended\n
TOKEN  ended\n
TOKEN 1x ended\n
TOKEN 1 2 ended\n
TOKEN 256 ended\n
TOKEN 1000 ended\n
TOKEN 256\n
TOKEN -1 ended\n
other-status 0 ended\n
END
    printf 'Welcome to this host\nTOKEN 9 ended\n' >told
    timeout 60 farmdawn-ssh --slots slots --tries 1 there -- true name
    expect 'a whole line is a verdict' [ $? -eq 9 ]
}

# The folder of the places is the user's own. In a temporary folder everybody may make one of its name before.
needs_slots() { has flock mkfifo timeout; }
test_slots() {
    stand_in
    echo kept >victim
    mkdir taken && chmod 1777 tmp
    for name in farmdawn-ssh "farmdawn-ssh-$(id -u)"; do
        mkdir "tmp/$name" && ln -s "$PWD/victim" "tmp/$name/there.0" && ln -s "$PWD/made" "tmp/$name/there.1"
        timeout 60 farmdawn-ssh --tries 1 there:2 -- sh -c 'exit 9' name 2>err
        ended=$?
        expect 'no file is emptied by a link' [ "$(cat victim)" = kept ]
        expect 'nor made' [ ! -e made ]
        rm -r tmp/farmdawn-ssh*
    done
    expect 'no verdict with such a file in our folder' [ "$ended $(grep -c 'not a file of yours' err)" = '255 1' ]
    ln -s "$PWD/taken" "tmp/farmdawn-ssh-$(id -u)"
    timeout 60 farmdawn-ssh --tries 1 there -- true name 2>err
    expect 'nor in a folder that a link leads to' [ "$? $(grep -c 'is a link' err)" = '255 1' ]
    rm "tmp/farmdawn-ssh-$(id -u)"
    timeout 60 farmdawn-ssh there -- sh -c 'exit 9' name
    expect 'a verdict' [ $? -eq 9 ]
    # shellcheck disable=SC2012
    expect 'our folder is for us alone' [ "$(ls -ld "tmp/farmdawn-ssh-$(id -u)" | cut -c1-10)" = drwx------ ]
    chmod 777 "tmp/farmdawn-ssh-$(id -u)"
    timeout 60 farmdawn-ssh there -- true name 2>err
    expect 'no verdict in one that others may write' [ "$? $(grep -c 'by others' err)" = '255 1' ]
    for host in ../x /x 'a b' '' 'a
b'; do
        timeout 60 farmdawn-ssh --slots slots "$host" -- true name 2>err
        expect "no host: '$host'" [ "$? $(grep -c 'is wanted' err)" = '255 1' ]
    done
    touch there
    timeout 60 farmdawn-ssh --slots slots 't*' -- sh -c 'exit 9' name
    expect 'a host is no pattern of files' [ "$? $(ls slots | grep -v ' ')" = '9 t*.0' ]
}

needs_others() { has flock mkfifo timeout && missing='root, who makes files of others' && [ "$(id -u)" -eq 0 ]; }
test_others() {
    stand_in
    mkdir tmp/farmdawn-ssh-0 && chown nobody tmp/farmdawn-ssh-0
    timeout 60 farmdawn-ssh --tries 1 there -- true name 2>err
    expect 'no verdict in the folder of another' [ "$? $(grep -c 'another user' err)" = '255 1' ]
    chown 0 tmp/farmdawn-ssh-0 && : >tmp/farmdawn-ssh-0/there.0 && chown nobody tmp/farmdawn-ssh-0/there.0
    timeout 60 farmdawn-ssh --tries 1 there -- true name 2>err
    expect 'nor with a file of another' [ "$? $(grep -c 'not a file of yours' err)" = '255 1' ]
}

# A place that is held for long is told, and waited for with a limit.
needs_limit() { has flock mkfifo timeout; }
test_limit() {
    stand_in
    mkdir slots
    flock slots/there.0 sh -c 'touch held; while [ -e held ] && [ ! -e off ]; do sleep 0.1; done' &
    wait_until 'the place is held' [ -e held ]
    timeout 60 farmdawn-ssh --slots slots --wait 2 there -- touch tested name 2>err
    expect 'no verdict, and two lines' [ "$? $(grep -c 'waits for a host\|no host was free for 2 s' err)" = '255 2' ]
    expect 'no test was run' [ ! -e tested ]
    touch off
}

# What the environment has leads the script nowhere, and ssh finds it as it was.
needs_environment() { has flock mkfifo timeout; }
test_environment() {
    stand_in
    echo 'exit 3' >startup
    mkdir -p elsewhere/folder elsewhere/slots folder
    for setting in "ENV=$PWD/startup" "BASH_ENV=$PWD/startup" IFS=7 POSIXLY_CORRECT=1 LC_ALL=C.UTF-8 "CDPATH=$PWD/elsewhere" "FARMDAWN_PARENT=1 1"; do
        env "$setting" timeout 60 farmdawn-ssh --slots slots --folder folder there:17 -- sh -c '[ "$PWD" = "$1" ] && exit 77' sh "$PWD/folder" name
        row expect "$setting" [ $? -eq 77 ]
    done
    for variable in host status hosts tries verdict me own token farmdawn folder; do
        # shellcheck disable=SC2016
        env "$variable=it's
mine " timeout 60 farmdawn-ssh --slots slots --folder "$PWD" there -- sh -c 'eval "[ \"\$$1\" = \"$2\" ]" && exit 77' sh "$variable" "it's
mine " name
        row expect "the user's own $variable" [ $? -eq 77 ]
    done
}

# A function that bash exports under the name of a command is none of ours.
needs_functions() { has bash flock mkfifo timeout; }
test_functions() {
    stand_in
    { echo "#!$(command -v bash)" && sed 1d "$top/tools/farmdawn-ssh"; } >bin/farmdawn-ssh
    chmod +x bin/farmdawn-ssh
    # shellcheck disable=SC2016
    timeout 60 bash -c 'for name in flock kill printf read ls id mkfifo mktemp sleep test cd rm wait true chmod exit set unset trap eval exec export; do
            eval "$name() { return 3; }"; export -f "$name"
        done; builtin exec bin/farmdawn-ssh --slots slots there -- sh -c "exit 77" name' 2>err
    expect 'the verdict' [ $? -eq 77 ]
}

needs_missing() { has flock mkfifo ln; }
test_missing() {
    for lacking in ssh flock mkfifo mktemp; do
        rm -rf bin && mkdir bin
        for tool in cat chmod date env flock id ls mkdir mkfifo mktemp rm sed sh sleep ssh true; do
            [ $tool = $lacking ] || ln -s "$(command -v $tool || command -v true)" bin/$tool
        done
        PATH=$PWD/bin "$top/tools/farmdawn-ssh" --slots slots there -- true name 2>err
        row expect "no verdict without $lacking" [ $? -eq 255 ]
        row expect 'which is named in one line' [ "$(cat err)" = "$(grep "$lacking is not installed" err)" ]
    done
}

# Where what started the script is killed, the test on the host ends.
needs_parents() { has_ssh && has pgrep setpriv; }
test_parents() {
    start_server
    words=''
    for word in $ssh_options; do words="$words --ssh '$word'"; done
    sh -c "farmdawn-ssh --slots slots $words 127.0.0.1 -- sh -c 'touch began; $long_sleep' name & wait" &
    until [ -e began ]; do expect 'the test runs' kill -0 $! && sleep 0.1; done
    kill -KILL $!
    wait $! 2>/dev/null
    wait_until 'no test runs on' none_runs "^$long_sleep"
}

run_test "$@"
