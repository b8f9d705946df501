#!/bin/sh
# The jobs of docs/CI.md, run with stand-ins for the servers (tests/ci.py).
. "$(dirname "$0")/helpers.sh"

has_yaml() {
    has git python3 /usr/bin/python3 || return
    missing='a Python with yaml'
    python=/usr/bin/python3
    "$python" -c 'import yaml' || { python=python3 && python3 -c 'import yaml'; }
}

run_jobs() {
    FARMDAWN=$farmdawn
    [ -x "$FARMDAWN" ] || FARMDAWN=$top/driver/model/farmdawn
    export FARMDAWN
    expect "the jobs of $1" "$python" -B "$top/tests/ci.py" "$1"
}

needs_gitlab() { has_yaml; }
test_gitlab() { run_jobs gitlab; }

needs_github() { has_yaml; }
test_github() { run_jobs github; }

needs_jenkins() { has_yaml; }
test_jenkins() { run_jobs jenkins; }

needs_forms() { has shellcheck && has_yaml; }
test_forms() { run_jobs forms; }

run_test "$@"
