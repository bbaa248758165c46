#!/bin/sh
# compare.sh PROGRAM SEED COUNT: PROGRAM against the oracle on COUNT drawings.
# compare.sh PROGRAM STREAM EXPECT: the same on two files at hand.
set -u
here=$(cd "$(dirname "$0")" && pwd)
[ $# -eq 3 ] || { echo "usage: compare.sh PROGRAM SEED COUNT | PROGRAM STREAM EXPECT" >&2; exit 2; }
program=$1
work=$(mktemp -d "${TMPDIR:-/tmp}/compare.XXXXXX")
if [ -f "$2" ] && [ -f "$3" ]; then
    cp "$2" "$work/stream"
    cp "$3" "$work/expect"
else
    python3 "$here/make.py" "$2" "$3" --expect "$work/expect" >"$work/stream" || exit 2
fi
"$program" <"$work/stream" >"$work/output" 2>"$work/errors"
echo "program ended with status $?"
python3 "$here/compare.py" "$work"
status=$?
if [ $status -eq 0 ]; then rm -r "$work"; else echo "files are in $work"; fi
exit $status
