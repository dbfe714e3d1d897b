#!/usr/bin/env bash
# Places in src/ of forms that an older Rattle had no other words for, one search a line. Usage: tools/places.sh [-l] [ROOT]
# With -l it lists them. tools/twins.py finds functions that are alike, tools/clauses.py facts and parameters that keep company.
set -u
list=
if [ "${1:-}" = -l ]; then list=1; shift; fi
cd "${1:-.}/crates"

places() {
    local what=$1 found
    found=$(grep -rnE --include='*.rt' -e "$2" -- */src | grep -vE "${3:-^$}")
    printf '%-62s %s\n' "$what" "$(printf '%s' "$found" | grep -c .)"
    if [ -n "$list" ] && [ -n "$found" ]; then printf '%s\n' "$found" | sed 's/^/    /'; fi
}

places '1 a number as an error' 'Result<[A-Z]\w*, u(8|16|32|64)>'
places '1 a function that answers one byte' '-> u8\b'
places '1 a match that wraps anew what it unwrapped' 'None => None|=> Some\(|Err\((\w+)\) => Err\(\1\)|Ok\(\w+\) => Ok\(|Ok\((\(\)|_)\) =>|Err\(_\) =>'
places '1 a bool beside other fields' '^\s+(pub(\(crate\))? )?\w+: bool,$' 'by_hard'
places '1 a fault in an Option; a bool in a Result' 'Option<\w*Fault>|Result<bool>'
places '3 a loop' "^\s*('\w+: )?(for|while|loop)\b"
places '3 a loop over indexes, or that may end at a count' 'for \w+ in 0\.\.|while at <'
places '3 a count that code raises or lowers by one' '\w (\+|-)= 1;'
places '4 an impl of a conversion or of Display' 'impl .*(From<|TryFrom<|Display for)'
places '4 an order, a least or a kind told by hand' 'if \w+ < \w+ \{ \w+( as \w+)? \} else|self\.\w+ < other\.|match \(\w+\.\w+, \w+\)|fn (number|read_kind|read_device|mark_byte)\b'
places '4 a cast to a narrower number, or an index' '\bas (u8|u16|u32|usize)\b'
places '6 bytes in an array that is a field' '^\s+(pub(\(crate\))? )?\w+: \[\w+; \w+\],'
places '6 a length or a place beside what it is of' '^\s+(pub(\(crate\))? )?(len|at|end|usable|used|pending|count): (usize|u16),$'
places '7 a bool that says which, a function in a table' '[(, ]by_\w+: bool|^\s+by_\w+: bool|: fn\('
