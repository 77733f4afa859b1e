#!/usr/bin/env bash
# Lists the places that docs/DESIGN-PASS.md counts: ./tools/places.sh [FOLDER [POINT]]. FOLDER is the top of a checkout.
# A place is a line of src/, outside tests and comments; with a point's number its places are printed, then their count.
set -euo pipefail
cd "${1:-.}"
code() { grep -nE "$1" crates/*/src/*.rt | grep -v '/tests\.rt:' | grep -vE ':[0-9]+: *//' || true; }
# an early answer within the first lines of a `for`
early() {
    awk 'FNR == 1 { at = -9 } /^ *for .* in / { at = FNR }
        FNR - at <= 6 && /^ +return (true|false|Some\([a-z]+\)|[a-z]+\.[a-z]+);$/ { print FILENAME ":" FNR ":" $0 }' \
        $(ls crates/*/src/*.rt | grep -v '/tests\.rt')
}

# 1. Matches that only pass an error or a none on, verdicts that are options of a fault, booleans in a result, enums of the
#    shape of Result, numbers for kinds.
p1() {
    code '(Err\((e|fault|trouble|_|\(_, e\))\)|None) => (return )?(Err\(|None,|false,|Some\((fault|refusal)\))'
    code 'Ok\(\(\)\) => (next|match)|Option<(Fault|Refusal)>|io::Result<(bool|Result<)|Result<bool'
    code 'enum (Outcome|Walk) |fn (number|from_number)\(|run\.kind == |kind: u8,'
}

# 2. Functions and loops that differ in their test, their type or their way alone, and literals that differ in a part.
p2() {
    early
    code '^ +count \+= 1;|^ +part: Part::[A-Z][a-z]+,$|>= view\.(runs|lists)\.len\(\)|if [a-z] < self\.(runs|lists|entries)\.len'
    code 'live &&? .*is_countable\(\)|slots\[[a-z]\] = |fn (left|right)_agrees|fn (on|back)\(|fn turn_(left|right)'
    code 'fn (value_of|part)[(<].*Kind|fn (clock_of|known_clock|listed_run|run_with)\(|count_fits\(self'
}

# 3. Loops over an index, and counters kept by hand.
p3() {
    code 'for [a-z][a-z_]* in 0\.\.|while [a-z]+ (<|>) |[a-z] (\+|-)= 1;|= [a-z]+\.saturating_add\(1\)'
}

# 4. Equality, defaults, clones, conversions, names and copies of fields written by hand.
p4() {
    code '\.client == [a-z.]*client && [a-z.]+clock == |^const (NO_[A-Z]+|ROOT)|impl(<.*>)? (Clone|Copy|Default|PartialEq|Eq) for'
    code 'fn (number|from_number|kind_of|same|are_same|is|is_id|id_of|kind|lean)\(|^ +([a-z]+): [a-z]+\.\2,$'
}

# 5. Facts asked of callers by three or more functions of a crate.
p5() {
    for crate in crates/*/src; do
        { grep -hE '^ +requires' "$crate"/*.rt 2>/dev/null || true; } | sed -E 's/^ +requires [a-z]* *\{ *//; s/ *\}$//' |
            sort | uniq -c | awk -v c="$crate" '$1 >= 3 { print c ": " $0 }'
    done
}

# 6. Counts beside a buffer, parallel arrays, lists searched by hand.
p6() {
    code '^ +pub(\(crate\))? ([a-z]+_)?count: u(32|size),|ends: Vec|marks: Vec|&mut Vec<Named>|\[\.\.(self|other)\.[a-z_]*count as usize\]'
    code 'if (p|record)\.client == client|for named in'
}

# 7. Functions chosen by a table or a pointer.
p7() { code 'fn\([A-Za-z0-9_, &<>]*\) ->|dyn |\[fn\('; }

for point in ${2:-1 2 3 4 5 6 7}; do
    lines=$("p$point" | sort -u)
    [ -n "${2:-}" ] && printf '%s\n' "$lines"
    printf '%s: %s\n' "$point" "$(printf '%s' "$lines" | grep -c . || true)"
done
