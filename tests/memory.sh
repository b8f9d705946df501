#!/bin/sh
# Refuses the built program memory: each of its allocations fails in turn, one a run. It answers as with ample memory, or
# says by its status that memory ran out; what it wrote is then a front of the text that was due.
. "$(dirname "$0")/helpers.sh"

# The names by which the C library of GNU allocates for one that stands before it.
has_glibc() {
    missing='__libc_malloc of glibc'
    echo 'extern void *__libc_malloc(unsigned long); int main(void) { return !__libc_malloc(1); }' | cc -x c -o "$work/links" -
}

needs_all() { has cc awk && has_program && has_glibc; }

# A library that refuses the allocation whose number REFUSED has, and keeps in the file COUNTED how many there were: the
# program ends without a last word, so they are counted in memory that is the file's.
make_refusing() {
    cat >refusing.c <<'END'
#include <errno.h>
#include <fcntl.h>
#include <stdatomic.h>
#include <stdlib.h>
#include <sys/mman.h>
#include <unistd.h>

extern void *__libc_malloc(size_t size);
extern void *__libc_calloc(size_t count, size_t size);
extern void *__libc_realloc(void *old, size_t size);

static atomic_uint own;
static atomic_uint *calls = &own;
static unsigned refused;

__attribute__((constructor)) static void begin(void)
{
    const char *number = getenv("REFUSED"), *name = getenv("COUNTED");
    int file = name ? open(name, O_RDWR | O_CREAT, 0600) : -1;
    if (file >= 0 && !ftruncate(file, sizeof *calls)) {
        void *shared = mmap(NULL, sizeof *calls, PROT_READ | PROT_WRITE, MAP_SHARED, file, 0);
        if (shared != MAP_FAILED)
            calls = shared;
    }
    *calls = 0;
    refused = number ? strtoul(number, NULL, 10) : 0;
}

static int refuses(void)
{
    if (atomic_fetch_add(calls, 1) + 1 != refused)
        return 0;
    errno = ENOMEM;
    return 1;
}

void *malloc(size_t size) { return refuses() ? NULL : __libc_malloc(size); }
void *calloc(size_t count, size_t size) { return refuses() ? NULL : __libc_calloc(count, size); }
void *realloc(void *old, size_t size) { return refuses() ? NULL : __libc_realloc(old, size); }
END
    cc -O1 -fPIC -shared -o refusing.so refusing.c || exit 1
}

# Eight commits in a line.
write_line() {
    awk 'BEGIN { for (i = 0; i < 8; i++)
        printf "commit refs/heads/main\ncommitter T <t@e> %d +0000\ndata 2\nc%d\n", i, i }'
}

# Files, a merge and a tag.
write_merge() {
    awk 'BEGIN { for (i = 1; i <= 4; i++) {
        printf "commit refs/heads/%s\nmark :%d\n", i == 2 ? "topic" : "main", i
        printf "author A <a@b> %d +0100\ncommitter B <b@c> %d -0530\ndata 2\nc\n", i, i
        if (i > 1) printf "from :%d\n", i == 4 ? 3 : 1
        if (i == 4) print "merge :2"
        printf "M 100755 e69de29bb2d1d6434b8b29ae775ad8c2e48c5391 d/%d\n", i }
        printf "tag v1.0\nfrom :1\ntagger A <a@b> 9 +0000\ndata 0\n\n" }'
}

# Runs the program over the file `stream` with these words, and refuses each of its allocations once. Several threads may
# take more in one run than in another.
refuse_each() {
    "$farmdawn" "$@" <stream >due
    wanted=$?
    COUNTED=$PWD/counted LD_PRELOAD=./refusing.so "$farmdawn" "$@" <stream >got
    expect 'the answer with ample memory' [ $? -eq $wanted ]
    most=$(od -An -tu4 counted | tr -d ' ') number=1 ran_out=0
    expect 'memory was taken' [ "$most" -gt 20 ]
    while [ $number -le "$most" ]; do
        REFUSED=$number LD_PRELOAD=./refusing.so "$farmdawn" "$@" <stream >got 2>told
        status=$?
        case $status in
        15) ran_out=$((ran_out + 1)) ;;
        *) expect "allocation $number: the answer, and not $status" [ $status -eq $wanted ] && cmp got due || exit 1 ;;
        esac
        is_front
        number=$((number + 1))
    done
    expect 'memory ran out in most runs' [ $((2 * ran_out)) -gt "$most" ]
    echo "$most allocations, of which $ran_out end the run"
}

needs_line() { needs_all; }
test_line() {
    make_refusing
    write_line >stream
    refuse_each simulate main main~7 ggggbbbb
}

needs_workers() { needs_all; }
test_workers() {
    make_refusing
    write_line >stream
    refuse_each simulate --workers 8 main main~7 gaggbbbb
}

needs_merge() { needs_all; }
test_merge() {
    make_refusing
    write_merge >stream
    refuse_each simulate main v1.0 gbgb
}

needs_log() { needs_all; }
test_log() {
    make_refusing
    write_line >stream
    "$farmdawn" simulate main main~7 ggggbbbb <stream | head -n 5 >part.log
    refuse_each simulate --replay part.log ggggbbbb
}

needs_lists() { needs_all; }
test_lists() {
    make_refusing
    write_line >stream
    printf '%s\n' 'main main~7 ggggbbbb' 'main main~7 gbbbbbbb' >searches
    refuse_each many 2 searches
}

needs_certificates() { needs_all; }
test_certificates() {
    make_refusing
    write_line >stream
    "$farmdawn" certify simulate main main~7 ggggbbbb <stream >found
    refuse_each certify simulate main main~7 ggggbbbb
    refuse_each check found
}

# A journal that has all outcomes, so that no test of another program is refused memory; and a search without a test.
needs_devices() { needs_all; }
test_devices() {
    make_refusing
    write_line >stream
    # shellcheck disable=SC2016
    set -- main main~7 -- sh -c 'case $1 in 771*) exit 0 ;; *) exit 1 ;; esac' x
    "$farmdawn" journal run "$@" <stream >/dev/null 2>&1
    refuse_each journal run "$@"
    refuse_each checkout run main main~1 -- true
}

# Requests behind a stream: two searches that share a worker, a log, a certificate, and one that is refused.
needs_requests() { needs_all; }
test_requests() {
    make_refusing
    write_line >stream
    "$farmdawn" simulate main main~7 ggggbbbb <stream | head -n 5 >part.log
    printf '%s\n' 'done' 'search main main~7' 'words --replay' 'search part.log' 'pick 1' 'pick 2' 'post 1 0' 'give 2' \
        'learn 1 771edca49728d8c78d5b371976ec2debc7c92b35 0' 'wanted 271bb9a08b2d5aa03871aa65fdadc01c488fa408' \
        'learn 1 271bb9a08b2d5aa03871aa65fdadc01c488fa408 1' 'certificate 1' 'search none' >>stream
    refuse_each serve
}

run_test "$@"
