#!/bin/sh
# Whether the pages name files that stand, show code as it stands, count what a claim rests on, and know the same options.
. "$(dirname "$0")/helpers.sh"

needs_pages() { has python3; }
test_pages() { expect 'the pages say what stands' python3 "$top/tests/pages.py"; }

needs_audit() { has python3; }
test_audit() { expect 'docs/AUDIT.md counts what stands (tests/audit.py --write makes it anew)' python3 "$top/tests/audit.py"; }

needs_options() { has python3; }
test_options() { expect 'options are the same wherever they stand' python3 "$top/tests/options.py"; }

run_test "$@"
