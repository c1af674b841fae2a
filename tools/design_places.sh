#!/bin/sh
# Counts the places that docs/DESIGN-PASS.md speaks of: tools/design_places.sh [FOLDER], of the repository at FOLDER or here.
cd "${1:-.}/crates" || exit 1

lines() { # WHAT PATTERN: lines of src that have it
    printf '%-72s %s\n' "$1" "$(grep -rhE --include=*.rt "$2" . | grep -vE '^[[:space:]]*//|ensures' | wc -l)"
}
passages() { # WHAT PATTERN: the same, over ends of lines
    printf '%-72s %s\n' "$1" "$(grep -rhzoE --include=*.rt "$2" . | tr '\0' '\n' | wc -l)"
}

lines 'a flag in a struct' '^ +(pub |pub\(crate\) )?[a-z_]+: bool,'
lines 'a variant that stands for nothing' '^ +(Nowhere|None|Nothing|Unknown),'
lines 'a function that says by a flag what happened' 'Result<bool,'
lines 'a local flag' 'let mut [a-z_]+ = (true|false);'
lines 'a class by its number' '(un)?ranked\([0-9]'
lines 'a count by hand' '\+= 1;|count \+ 1'
lines 'a loop over a range of indices' 'for [a-z_]+ in [0-9a-z_]+\.\.'
lines 'a while loop' '^ *while '
printf '%-72s %s\n' 'a search that returns from a loop' "$(grep -rhE --include=*.rt -A3 '^ *for ' . | grep -cE 'return (true|Some\(|i;|n;)')"
lines 'equality by a method' '\.equals\('
lines 'a conversion by a method' '\.number\(\)|with_number\(|\.alone\(\)|\.digits\(\)|\.code\(\)|\.in_area\(\)|Serving::of\('
passages 'a match that hands on what it got' 'Some\((\w+)\) => (Ok|Some)\(\1|Err\((\w+)\) => Err\(\3\)|None => None,|None => Err\(|Err\(_\) => Err\(|Err\(_\) => [A-Z0-9]'
lines 'a text made to be appended' 'format!\(in'
lines 'the heap handed on' 'heap: Global'
lines 'a length beside its buffer' '^ +(pub |pub\(crate\) )?(count|length): usize,'
lines 'a buffer cut by its length' '\[0\.\.(count|n|end)\]'
lines 'a match on which step to run' 'match run '
printf '%-72s %s\n' 'proof files' "$(git ls-files | grep -c 'proofs/.*antt')"
printf '%-72s %s\n' 'lines of proofs' "$(git ls-files | grep 'proofs/.*antt' | xargs cat | wc -l)"
printf '%-72s %s\n' 'lines of src' "$(git ls-files | grep 'src/.*rt$' | xargs cat | wc -l)"
