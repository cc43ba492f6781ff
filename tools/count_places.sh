#!/bin/sh
# Counts in crates/*/src, for docs/DESIGN-PASS.md: run it at the top of a checkout. With -l it prints the lines too.
if [ "$1" = -l ]; then show=cat; else show=true; fi
lines() {
    found=$(grep -rnE "$2" crates/*/src --include=*.rt)
    echo "$1: $(printf '%s' "$found" | grep -c '')"
    printf '%s\n' "$found" | $show
}
lines '1 enums' '^\s*(pub(\(crate\))? )?enum '
lines '1 flags beside a value' '[a-z_]+: bool[,)]'
lines '1 numbers for kinds and calls' '(kind|call_number|signature_of|code|number)(\(|: )[^"]*(u32|usize)'
lines '1 cases as numbers' '=> [0-9]+,'
lines '3 loops' '^\s*(for|while|loop)\b'
lines '3 loops over a range' '^\s*for [a-z_]+ in .*\.\.'
lines '3 elements by an index' '\[(1 \+ )?(i|index|page|number|word|self\.[a-z]+)( - 1)?\]'
lines '4 impls by hand' 'impl.*\b(PartialEq|Eq|PartialOrd|Ord|Clone|Copy|Display|Debug|Default) for|impl.*\b(From|TryFrom)<.*> for'
lines '4 conversions' 'fn (to_|into_|from_|as_|code|number)[a-z_]*\('
lines '4 casts' ' as (u8|u16|u32|u64|usize|i32|i64)\b'
lines '4 types' '^\s*(pub(\(crate\))? )?(enum|struct) '
echo '5 facts that stand in three contracts or more:'
grep -rhoE '(requires|ensures)[*]? ?[a-z_]* ?\{.*\}' crates/*/src --include=*.rt |
    sed -E 's/^(requires|ensures)[*]? ?[a-z_]* ?//; s/\b[a-z_]+\.(now|old|new)\b/X/g' |
    sort | uniq -c | sort -rn | awk '$1 >= 3'
lines '6 buffers and arrays' '^\s*(pub(\(crate\))? )?[a-z_]+: (Vec<|\[)|^(pub(\(crate\))? )?type .*\['
lines '7 steps chosen at run time' '\bdyn |: fn\('
