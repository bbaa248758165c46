#!/bin/sh
# Lists the places in src/ that docs/DESIGN-PASS.md speaks of: `tools/places.sh POINT`, POINT from 1 to 7, at the top of the tree.
# With a second argument, a folder, it lists them there: `tools/places.sh 3 /tmp/older`.
cd "${2:-.}" || exit 1
files=$(find crates/*/src -name '*.rt' | sort)
case "$1" in
1)  # enums; numbers that stand for "none" or "several"; yes or no as the answer of a step that can fail
    grep -nE '^(pub )?enum ' $files
    grep -nE '\b(UNMET|NONE|SEVERAL)\b|\b(number|next|old|back|place|image|table\[pair\]) (==|!=) 0\b' $files
    grep -nE 'fn (push|follow|meet|walk|trial|trial_into|shares|is_repeated)\b' $files ;;
2)  # loops that look for the lowest record that is bad; functions and types that come twice
    grep -nE 'place: (e|k|g|p) \+ 1' $files
    grep -nE '(struct (Fault|Misfit|Refusal)|enum (Way|Layer)|fn (next|opposite|coordinate|index|mark|blanks|letters|(point|face|corner|check|number|kind)_fields?))\b' $files ;;
3)  # loops over a range of indices, and loops that count by hand
    grep -nE '^ *(for [a-z_]+ in \(?[a-z_0-9]+\.\.|while )' $files ;;
4)  # conversions and printing by hand
    grep -nE 'fn (of|number|print_refusal|print_check|print_label|print_lay|kind_name|read_command|numbers|copy_to)\b|match cause\.layer\(\)|match fault\.cause\.layer\(\)' $files ;;
5)  # facts that stand in the contracts of three functions or more, counted by the fact
    grep -hE '^ *(requires|ensures)\b' $files |
        grep -oE '\b(Placed|EdgeList|Bounded|Ready|Wired|Spanned|Fresh|Steady|Mesh|unset|unmarked|others)\b|length (corners|points).now ≤ [0-9]+|length [a-z.]*slots.now ≡ length [a-z.]*slots|length (result|parts.now|parts.old|marks.now|opposite.now) ≡' |
        sort | uniq -c | sort -rn ;;
6)  # arrays in structs, lent slices in structs, arrays that are locals
    grep -nE "^ +(pub )?[a-z_]+: (\[.*; [0-9]+\]|&'a mut \[.*\]),|\[[^]]*; (480|160|64|251|25600)\];" $files ;;
7)  # switches on which step to run
    grep -nE '(rule|way|kind): (Rule|Way|KindName)\b' $files ;;
*)  echo "usage: tools/places.sh POINT [FOLDER], POINT from 1 to 7" >&2; exit 2 ;;
esac
