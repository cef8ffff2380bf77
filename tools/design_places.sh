#!/usr/bin/env bash
# Lists, for each point of docs/DESIGN-PASS.md, the lines of src/ that show a place or may show one, and how many there are.
#   tools/design_places.sh [COMMIT] [--lines]     COMMIT: the sources of that commit; without it, those that lie here
set -uo pipefail
cd "$(dirname "$0")/.."
commit= lines=
for word in "$@"; do
    case $word in
        --lines) lines=yes ;;
        *) commit=$word ;;
    esac
done
find_lines() { git grep -nE "$1" $commit -- 'crates/*/src/*' | sed "s/^$commit://" || true; }
show() { # a title and a pattern
    local found count
    found=$(find_lines "$2")
    count=$(printf '%s' "$found" | grep -c .)
    printf '%-62s %4d\n' "$1" "$count"
    if [ -n "$lines" ] && [ -n "$found" ]; then printf '%s\n' "$found" | sed 's/^/    /'; fi
}
same_names() {
    local found
    found=$(git grep -hoE '^\s*(pub(\(crate\))? )?fn [a-z_0-9]+' $commit -- 'crates/*/src/*' | sed 's/.*fn //' | sort | uniq -d)
    printf '%-62s %4d\n' '2  names that two functions have' "$(printf '%s' "$found" | grep -c .)"
    if [ -n "$lines" ]; then printf '    %s\n' $found; fi
}
show '1  enums (read: has one the shape of Option or Result?)' '^\s*(pub(\(crate\))? )?enum '
show '1  arrays and slices of marks (read: beside a value?)' '\[bool|\[false;'
show '1  numbers that stand for an answer or a kind' 'fn number\(|\b255\b|_answer\(|fn last_of'
same_names
show '3  while and loop' '(^|\s)(while|loop) '
show '3  for over a range of numbers' 'for [a-z_]+ in \(?[a-z0-9_.:()]+\.\.'
show '4  order, sum, conversion and printing by hand' 'fn (compare|cmp|eq|partial_cmp|add|fmt|from_[a-z_]+|field|clone)\b|Ordering::(Less|Equal|Greater)'
show '5  the lists of a plan as parameters' '^\s*(names|colours|ends|costs): &|[(,] ?(names|colours|ends|costs): &'
show '5  parts of a graph as parameters' '(incidence: &|relays: usize)'
show '5  clauses with a kind in parts' 'C\.Cost\.(none|plus|less|link|adds)|C\.TextCost\.'
show '6  fixed arrays' '\[[A-Za-z0-9_:(){} ]+; [0-9A-Z_]+\]'
show '6  places in a text or a list, handed on as numbers' '\bat: usize|start: usize|\bstart\.\.|\[at\]'
show '7  functions handed on, or boxed' 'dyn |Fn\(|FnMut|FnOnce|: fn\('
