#!/usr/bin/env bash
# bad-lines.sh PROGRAM: each line below has to stop the program with status 1, a message that names line 2, and what was
# judged before still on its output. The lines after them have to pass.
set -euo pipefail
program=$1
failed=0

stops() { # LINE EXPECTED
    local out err status=0
    err=$(mktemp)
    out=$(printf 'check\n%b\ncheck\n' "$1" | "$program" 2>"$err") || status=$?
    if [ "$status" -ne 1 ] || ! grep -q "^line 2: expected $2" "$err" || [ "$(grep -c '^check 1 0' <<<"$out")" -ne 1 ]; then
        echo "bad line '$1': status $status, $(cat "$err")"
        failed=1
    fi
    rm -f "$err"
}

passes() { # LINE
    if ! printf '%b' "$1" | "$program" >/dev/null 2>&1; then
        echo "good line '$1' was refused"
        failed=1
    fi
}

stops 'q 1 2 3' 'a line that begins'
stops 'P 1 2 3' 'a line that begins'
stops 'p 1 2' 'p X Y Z'
stops 'p 1 2 3 4' 'p X Y Z'
stops 'p 1 2 x' 'p X Y Z'
stops 'p 1 2 9223372036854775808' 'p X Y Z'
stops 'p 1 2 3.0' 'p X Y Z'
stops 'c 1 256 2' 'c POINT MARK NEXT'
stops 'c -1 0 2' 'c POINT MARK NEXT'
stops 'c 1 0 18446744073709551616' 'c POINT MARK NEXT'
stops 'c 1 0' 'c POINT MARK NEXT'
stops 'f' 'f FIRST'
stops 'f 1 2' 'f FIRST'
stops 'check it' 'check with nothing'
stops '\xff' 'a line that begins'
stops 'label' 'label EDGE'
stops 'label x' 'label EDGE'
stops 'label -1' 'label EDGE'
stops 'label 1 2' 'label EDGE'
stops 'label 18446744073709551616' 'label EDGE'
stops 'labels 1' 'a line that begins'
stops 'i' 'i IMAGE'
stops 'i 1 2' 'i IMAGE'
stops 'i -1' 'i IMAGE'
stops 'i 1.0' 'i IMAGE'
stops 'i 18446744073709551616' 'i IMAGE'
stops 'I 1' 'a line that begins'
stops 'lay' 'lay KIND'
stops 'lay measures' 'lay KIND'
stops 'lay Mark' 'lay KIND'
stops 'lay 1' 'lay KIND'
stops 'lay measure mark' 'lay KIND'

passes 'p 9223372036854775807 -9223372036854775808 0\ncheck\n'
passes 'c 18446744073709551615 255 0\nf 18446744073709551615\ncheck\n'
passes '# a remark\n\n  \t\np 1 2 3\r\ncheck\r\n'
passes 'label 18446744073709551615\ni +0\ni 18446744073709551615\nlay\tboth\r\n'
passes 'lay measure\nlay mark\nlay both\n'
passes 'check'
passes ''

# Nothing is lost: what was in hand before a bad line, and what no line asked for, is said at the end.
writes() { # INPUT OUTPUT
    local out
    out=$(printf '%b' "$1" | "$program" 2>/dev/null) || true
    if [ "$out" != "$(printf '%b' "$2")" ]; then
        echo "input '$1': got"
        echo "$out"
        failed=1
    fi
}

none='label 13 1 catalogue: no drawing was sound so far; draw one and check it first'
few='lay 13 1 catalogue: fewer than two drawings were sound so far; draw and check them first'
zero='drawings: 0, sound: 0, refused: 0'

writes 'i 1\ni 2\n' "$zero\nleft without a lay: 2 images"
writes 'p 1 2 3\ni 1\n' "$zero\nleft without a check: 1 points, 0 corners, 0 faces\nleft without a lay: 1 images"
writes 'i 1\nlay none\ni 2\n' "$zero\nleft without a lay: 1 images"
writes 'label 1\ni 1\nlay both\n' "$none\n$few\n$zero"
writes 'i 1\nlabel 1\ni x\n' "$none\n$zero\nleft without a lay: 1 images"

[ "$failed" -eq 0 ] && echo 'bad lines: all as expected'
exit "$failed"
