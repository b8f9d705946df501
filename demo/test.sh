#!/bin/sh
# Stands in for a build and a test of the commit that is its last word: it takes half a second, and the commits that the
# file `broken` names are bad.
sleep 0.5
! grep -q "^$1\$" broken
