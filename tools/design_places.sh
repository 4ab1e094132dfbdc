#!/bin/sh
# Lists the places of src/ that a design pass looks at, point by point. Read the hits: not each of them is a place.
# usage: tools/design_places.sh [FOLDER], another checkout's folder; the first search of a point has the names that its
# places had when the pass began, the second no names at all.
cd "${1:-$(dirname "$0")/..}" || exit 1
look() { grep -rnE "$1" crates/*/src --include=*.rt | grep -v '/tests\.rt:'; }
code() { find crates -path '*/src/*' -name '*.rt' -not -name tests.rt -not -path '*/out/*'; }

echo '== 1. own enums, flags beside values, numbers for kinds'
look '^(pub(\(crate\))? )?enum |: bool|\(bool|No(Move|Outcome) =>|Other|number: u8,$|\{ number \} else'
echo '-- any: enums, tests for 0 and answers of 0'
look '\benum |== 0\b|=> 0,|map_or\(0|None => (false|0)'
echo '== 2. names that stand more than once, and types with a place beside a value'
grep -rhoE '\bfn [a-z_]+' crates/*/src --include=*.rt | sort | uniq -c | awk '$1 > 1'
look 'pub next: usize|fn (put|write|after|moves_in|outcomes_in|join)[a-z_]*\b|const NO_|record_at\('
echo '-- any: signatures of more than one function, names aside'
code | xargs grep -hoE '\bfn [a-z_]+.*' | sed -E 's/fn [a-z_]+//' | sort | uniq -c | awk '$1 > 1'
echo '== 3. loops that count by hand'
look '\bwhile |(\+|-)= 1;|figures\[place\]|\[next\]|0\.\.self\.held'
echo '-- any: loops and indices'
look '^ *(for|while|loop)\b.*\{$|[a-z]\[[a-z(]'
echo '== 4. equality, order, copying, conversion, printing by hand'
look 'impl.* (PartialEq|Eq|PartialOrd|Ord|Clone|Copy|From<.*>|TryFrom<.*>|Default|fmt::Display|Fault) for|Counts \{$|PlanHead \{$'
echo '-- any: casts, and structs that are written out'
look ' as (u|i)(8|16|32|64|size)|= [A-Z][A-Za-z]+ \{$|\([A-Z][A-Za-z]+ \{$'
echo '== 5. repeated facts and parameters that travel together'
grep -rnoE 'SameTables [a-z]+\.new [a-z]+\.old|limits: Limits|pairs (self|result)[a-z.]*bars|P\.(Plant\.)?meaning self\.[a-z]+\.plant|self\.now\.pieces self\.now\.levels|text: &\[u8\]' crates/*/src --include=*.rt | sed 's/:[0-9]*:/: /' | sort | uniq -c
echo '-- any: pairs of parameters in three functions or more'
code | xargs cat | tr '\n' ' ' | grep -oE '\bfn [a-z_]+(<[^(]*>)?\([^)]*\)' | sed -E 's/^[^(]*\(//; s/\)$//; s/: [^,]*//g; s/ *, */,/g; s/ +//g; s/&mut|&//g' | awk -F, '{ for (i = 1; i < NF; i++) if ($i != "" && $(i + 1) != "") print $i " " $(i + 1) }' | sort | uniq -c | awk '$1 > 2'
echo '== 6. buffers, arrays, rows, tables'
look '\[[A-Za-z]+; [A-Z_0-9]+\]|held: usize|figures: &|first: usize'
echo '-- any: arrays and places in structs'
look '\[[^];]+; |^ +pub(\(crate\))? [a-z]+: (usize|&)'
echo '== 7. closures, function values, dyn'
look 'dyn |impl Fn|\bfn\(|Fn(Mut|Once)?\('
echo '== 8. proof files of functions'
find crates -name Answers.antt -path '*/proofs/*' -not -path '*/out/*' | wc -l
find crates -name Invariants.antt -path '*/proofs/*' -not -path '*/out/*' | wc -l
find crates -name '*.antt' -path '*/proofs/*' -not -path '*/out/*' -exec cat {} + | wc -l
