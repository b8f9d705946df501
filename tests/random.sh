#!/bin/sh
# A few rounds of the tests by random numbers: hostile input, repositories, these by path, folders of commits, lists of
# searches, runs that are killed, runs whose tests are ended, and dialogues. Their own pages say how more are run, and beside which programs.
. "$(dirname "$0")/helpers.sh"

needs_hostile() { has python3 && has_program; }
test_hostile() { expect 'hostile input' python3 "$top/tests/hostile.py" --count 100 "$farmdawn"; }

needs_repositories() { has python3 git && has_program; }
test_repositories() { FARMDAWN=$farmdawn expect 'repositories' python3 "$top/tests/repositories.py" --count 10; }

needs_paths() { needs_repositories; }
test_paths() { FARMDAWN=$farmdawn expect 'repositories by path' python3 "$top/tests/paths.py" --count 12 --jobs 2; }

# names of files that are words of the program, which takes those in UTF-8; the files are made where TMPDIR says
has_plain_path() { missing='a path in UTF-8' && printf %s "${TMPDIR-}" | iconv -f UTF-8 -t UTF-8 >/dev/null 2>&1; }

needs_folders() { has python3 git && has_program && has_plain_path; }
test_folders() { FARMDAWN=$farmdawn expect 'folders of commits' python3 "$top/tests/folders.py" --count 3; }

needs_lists() { has python3 && has_program; }
test_lists() { FARMDAWN=$farmdawn expect 'lists of searches' python3 "$top/tests/lists.py" --count 20; }

needs_crashes() { has python3 && has_program && has_plain_path; }
test_crashes() { FARMDAWN=$farmdawn expect 'runs that are killed' python3 "$top/tests/crashes.py" --kills 9; }

needs_ended() { has python3 git && has_program && has_plain_path; }
test_ended() { FARMDAWN=$farmdawn expect 'runs whose tests are ended' python3 "$top/tests/ended.py" --count 6; }

needs_serve() { has python3 && has_program && has_plain_path; }
test_serve() { FARMDAWN=$farmdawn expect 'dialogues' python3 "$top/tests/serve_random.py" --count 20; }

long='hostile repositories paths folders crashes ended'
run_test "$@"
