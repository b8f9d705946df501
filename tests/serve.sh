#!/bin/sh
# The program as a server of requests: the session and the driver of docs/SERVE.md, as the page has them, and what the two
# pipes meet: pieces of one byte, torn lines, lines that are too long, streams that are refused, an output that fails.
. "$(dirname "$0")/helpers.sh"

page=$top/docs/SERVE.md

# The blocks of the page in this language.
block() {
    awk -v fence="\`\`\`$1" '$0 == fence { inside = 1; next } /^```/ { inside = 0 } inside' "$page"
}

# A stream of so many commits in a line, with its end.
stream() {
    "$farmdawn" gen 1 "$1" && echo 'done'
}

# A repository of so many commits, whose file says which one it is.
make_repository() {
    git init -q repository && cd repository || exit 1
    git symbolic-ref HEAD refs/heads/main
    count=0
    while [ $count -lt "$1" ]; do
        count=$((count + 1))
        echo $count >number
        git add number && git commit -qm "number $count"
    done
}

needs_session() { has_program && has python3; }
test_session() {
    block text >session
    block console | sed '/^\$ /d' >due
    "$farmdawn" serve <session >got
    expect 'a session ends with 0' [ $? -eq 0 ]
    expect 'it prints what the page shows' cmp due got
}

# The driver prints what `run` prints, with as many workers as there are.
needs_driver() { has_program && has git python3; }
test_driver() {
    block python >drive.py
    mkdir bin && ln -s "$farmdawn" bin/farmdawn
    PATH=$PWD/bin:$PATH
    make_repository 20
    # shellcheck disable=SC2016 # the words are those of the inner shell
    test='[ "$(git show "$0:number")" -lt 13 ]'
    git fast-export --all --no-data | FARMDAWN_QUIET=1 farmdawn run main main~19 -- sh -c "$test" >../due
    for workers in 1 2 5; do
        python3 ../drive.py $workers main main~19 -- sh -c "$test" >../got
        expect "the driver ends with 0 ($workers workers)" [ $? -eq 0 ]
        expect "and prints what run prints ($workers workers)" cmp ../due ../got
    done
    python3 ../drive.py 2 main main~19 -- sh -c 'exit 128' >../got
    expect 'a test that aborts' [ $? -eq 6 ]
    expect 'is told' grep -q '^bisect aborted: exit 128 on ' ../got
    python3 ../drive.py 2 main main -- true 2>../told
    expect 'a search that is no search' [ $? -eq 5 ]
    python3 ../drive.py 2 none main -- true 2>../told
    expect 'a search that is refused' [ "$(cat ../told)" = "not begun: refused name refused at word 1: unknown" ]
}

# Adds a commit with these further headers and this message to the branch, and prints its name.
add_raw() {
    echo raw >>number && git add number
    printf 'tree %s\nparent %s\nauthor A <a@b> 1 +0000\ncommitter A <a@b> 1 +0000\n%b\n%b\n' "$(git write-tree)" "$(git rev-parse main)" "$1" "$2" |
        git hash-object -t commit -w --stdin >../name
    git update-ref refs/heads/main "$(cat ../name)"
    cat ../name
}

# It names commits as the repository does, whatever headers they have, and takes no subject for a reply.
needs_odd() { has_program && has git python3; }
test_odd() {
    block python >drive.py
    mkdir bin && ln -s "$farmdawn" bin/farmdawn
    PATH=$PWD/bin:$PATH
    make_repository 1
    add_raw 'encoding latin1\n' 'gr\0374n' >../first
    add_raw '' 'gr\0374n\rok' >>../first
    add_raw 'gpgsig -----BEGIN PGP SIGNATURE-----\n -----END PGP SIGNATURE-----\n' 'signed\rwait' >>../first
    add_raw '' 'x\rtest 1 --version' >>../first
    add_raw 'HG:extra a:b\n' 'last' >>../first
    printf 'object %s\ntype commit\ntag s\ntagger A <a@b> 1 +0000\n\nm\n-----BEGIN PGP SIGNATURE-----\n-----END PGP SIGNATURE-----\n' "$(git rev-parse main)" |
        git hash-object -t tag -w --stdin >../tag
    git update-ref refs/tags/s "$(cat ../tag)"
    while read -r first; do
        timeout 60 python3 ../drive.py 3 main main~5 -- sh -c '! git merge-base --is-ancestor "$1" "$2"' sh "$first" >../got 2>../told
        row expect "the first bad commit, git's name of it" [ "$(tail -n 1 ../got)" = "$first is the first bad commit" ]
    done <../first
}

# Each reply comes before the next request is sent, with whatever pieces the requests come in.
needs_pipes() { has_program && has python3; }
test_pipes() {
    stream 8 >stream
    cat >ask.py <<'TEXT'
import subprocess, sys
server = subprocess.Popen([sys.argv[1], "serve"], stdin=subprocess.PIPE, stdout=subprocess.PIPE, bufsize=0)
requests = [b"pick 1", b"search main main~7", b"pick 1", b"pick 2", b"pick 2", b"post 2 0", b"give 1", b"words", b"x"]
replies = (b"ready", b"search", b"test", b"wait", b"over", b"ok", b"refused")
def send(bytes):
    for at in range(len(bytes)):
        server.stdin.write(bytes[at:at + 1])
def reply():
    while True:
        line = b""
        while not line.endswith(b"\n"):
            byte = server.stdout.read(1)
            if not byte: sys.exit("the program ended")
            line += byte
        print(line.decode(), end="")
        if line.split()[0] in replies: return
send(open("stream", "rb").read())
reply()
for request in requests:
    send(request + b"\n")
    reply()
server.stdin.close()
sys.exit(server.wait())
TEXT
    timeout 60 python3 ask.py "$farmdawn" >got
    expect 'piece by piece' [ $? -eq 0 ]
    { cat stream && printf '%s\n' 'pick 1' 'search main main~7' 'pick 1' 'pick 2' 'pick 2' 'post 2 0' 'give 1' words x; } | "$farmdawn" serve >due
    expect 'all at once' [ $? -eq 0 ]
    expect 'the same is printed' cmp due got
}

needs_lines() { has_program; }
test_lines() {
    stream 3 >stream
    { cat stream && printf 'pick 1\npick 2'; } | "$farmdawn" serve >got
    expect 'a torn line is none' [ "$(cat got)" = "$(printf 'ready 1 3\nover')" ]
    { cat stream && head -c 65535 /dev/zero | tr '\0' x && echo && head -c 65536 /dev/zero | tr '\0' x && printf '\npick 1\n'; } |
        "$farmdawn" serve >got
    expect 'a line that is too long' [ "$(cat got)" = "$(printf 'ready 1 3\nrefused unknown request\nrefused line too long\nover')" ]
    "$farmdawn" serve <stream >got
    expect 'no request' [ "$(cat got)" = 'ready 1 3' ]
    "$farmdawn" gen 1 3 | "$farmdawn" serve >got
    expect 'a stream without its end' [ "$(cat got)" = 'ready 1 3' ]
}

needs_refusals() { has_program; }
test_refusals() {
    stream 3 >stream
    echo none | "$farmdawn" serve >got 2>told
    expect 'a stream that is refused' [ $? -eq 7 ]
    echo none | "$farmdawn" next a b >due 2>told
    expect 'is told as by next' cmp due got
    "$farmdawn" serve main <stream >got 2>told
    expect 'a further word' [ $? -eq 1 ]
    expect 'is told' [ "$(cat got)" = 'usage fault at word 1' ]
    expect 'with its hint' grep -qF 'serve [--original-names]' told
    "$farmdawn" serve --original-names main <stream >got 2>told
    expect 'a word behind the option' [ "$(cat got)" = 'usage fault at word 2' ]
}

# The repository's own names, where the stream tells them: in every line, and in the words of a search.
needs_names() { has_program && has git; }
test_names() {
    make_repository 8
    git fast-export --all --no-data --show-original-ids --use-done-feature >../whole
    cd .. && sed 's/^committer .*/committer A <a@b> 1 +0000/' whole >stream # so the names that it computes are others
    good=$(git -C repository rev-parse main~7) bad=$(git -C repository rev-parse main)
    printf '%s\n' "search $bad $good" 'pick 1' 'post 1 0' 'pick 1' >requests
    cat whole requests | "$farmdawn" serve >due
    cat stream requests | "$farmdawn" serve --original-names >got
    expect 'the names of the repository' cmp due got
    cat stream requests | "$farmdawn" serve >got
    expect 'are not those of the stream' [ "$(sed -n 2p got)" = 'refused name refused at word 1: unknown' ]
    printf '%s\n' "search $(printf %.12s "$bad") $good" "search main $(printf %.39s "$good")" "search main $good" >requests
    cat stream requests | "$farmdawn" serve --original-names >got
    expect 'the first digits name no commit' [ "$(sed -n 2p got)" = 'refused name refused at word 1: unknown' ]
    expect 'be it 39 of them' [ "$(sed -n 3p got)" = 'refused name refused at word 2: unknown' ]
    expect 'beside refs and whole names' [ "$(tail -n 1 got)" = 'search 1' ]
    sed "s/^original-oid $bad/original-oid $good/" stream | "$farmdawn" serve --original-names >got 2>told
    expect 'two commits of one name' [ $? -eq 7 ]
    expect 'are told by the line of the second' grep -q "^stream refused at line $(grep -n '^commit ' stream | sed -n '8s/:.*//p'): syntax" got
    sed "s/^original-oid $bad/original-oid abc/" stream | "$farmdawn" serve --original-names >got 2>told
    expect 'no name' [ $? -eq 7 ]
    "$farmdawn" gen 1 3 | "$farmdawn" serve --original-names >got 2>told
    expect 'a stream without names' [ $? -eq 7 ]
}

needs_full() { has_program && has timeout; }
test_full() {
    stream 3 >stream
    "$farmdawn" serve <stream >/dev/full
    expect 'a full disk' [ $? -eq 13 ]
    { cat stream && yes 'pick 0'; } 2>/dev/null | timeout 60 "$farmdawn" serve | head -n 3 >got
    expect 'a reader that goes away' [ "$(cat got)" = "$(printf 'ready 1 3\nrefused bad worker\nrefused bad worker')" ]
}

# What is left behind a crash is sent again by `learn`, and a log by --replay.
needs_again() { has_program; }
test_again() {
    stream 8 >stream
    { cat stream && printf '%s\n' 'search main main~7' 'pick 1'; } | "$farmdawn" serve >got
    commit=$(sed -n 's/^test 1 //p' got)
    { cat stream && printf '%s\n' 'search main main~7' "learn 1 $commit 1" 'pick 1' "learn 1 $commit 1"; } | "$farmdawn" serve >got
    expect 'what was learnt is in the log' grep -q "^log 1 git bisect bad $commit\$" got
    expect 'and another commit is tested' [ "$(grep -c '^test 1 ' got)" -eq 1 ]
    expect 'it is learnt once' [ "$(tail -n 1 got)" = 'refused has an outcome' ]
    sed -n 's/^log 1 //p' got >log
    sed -n 's/^test 1 //p' got >due
    { cat stream && printf '%s\n' 'search --replay log' 'pick 1'; } | "$farmdawn" serve | sed -n 's/^test 1 //p' >got
    expect 'a log is gone on from' cmp due got
    { cat stream && echo 'search --replay none'; } | "$farmdawn" serve >got
    expect 'a file that is missing' [ "$(tail -n 1 got)" = 'refused no such file' ]
}

run_test "$@"
