#!/bin/sh
# Counts the places of each point of docs/DESIGN-PASS.md in the sources, with one search for each. With -v it prints them.
cd "$(dirname "$0")/.." || exit 1
p() {
    label=$1; pattern=$2
    found=$(grep -rnE "$pattern" crates/*/src)
    if [ -z "$found" ]; then n=0; else n=$(printf '%s\n' "$found" | wc -l); fi
    printf '%4d  %s\n' "$n" "$label"
    if [ "$show" = -v ] && [ "$n" -gt 0 ]; then printf '%s\n' "$found" | sed 's/^/          /'; fi
}
show=$1
p '1  a refusal or the row of a refusal answered in an Option' '(-> |Result<)Option<(Refusal|RowId)>'
p '1  an Option or a Result turned into another by hand' 'if let Some\((refusal|e|fault)\)|Some\(\w+\) => (Err|Ok|Some)\(|None => (Ok|Err)\(|let Ok\(.*else|Err\(\w+\) => Err\('
p '1  a number for a kind, a layer or a missing thing' 'fn (from_code|layer|kind_code|position)\b|below: (u8|\[u8)|NO_ENTRY: '
p '1  a flag as a parameter' '(wanted|negative|taken): bool'
p '2  functions that differ in a type, a size or a constant' 'fn (has|with|without|only|union|is_bit|cut_types|cut_rows|put_types?|put_rows?|gate_count|mate_count|straight|reversed|straight_table|takes|push_(start|end)_lines|(start|end)_line|booking|forecast|refusal_line|type_sizes|type_facts|joined)\b'
p '3  loops that count by hand' 'for \w+ in \(?0\.\.|while '
p '4  equality, conversion and printing by hand' 'impl (PartialEq|Eq|Ord|PartialOrd) for|fn (same_\w+|from_code|code|kind_code|word|refusal_line|digit|decoded|agrees)\b'
p '5  clauses that ask one fact again and again' 'requires( \w+)? \{ *(length (left|bytes)\.now ≤ total|i ≤ 16|sizes\.now ≡|.*(type_at rows|Accepted types)|.* < length rows\.now \}|is_place |envs\.now ≡|taken ≡|length rows\.now < 128|Fit )'
p '5  parameters that travel together' '(types: &\[TypeEntry\].*(sizes|rows): &|total: usize|buffer: &mut \[u8\], at|^ *(envs|taken|count|capacity|given): (&|u))'
p '5  the record of tokens, moves and view written out' 'record \{ tokens = '
p '6  a buffer with a length beside, parallel arrays' 'let mut (buffer|wires|seats|table|held|below) = \[|records: Vec|envs: Vec|facts: Vec|seats: \[Wire|wires: \[Wire'
p '7  a switch on which step to run' 'if kind == '
