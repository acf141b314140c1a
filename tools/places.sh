#!/bin/sh
# Lists the places in the sources that docs/DESIGN-PASS.md counts, point by point.
# Run at the top of the repository. Each line is a candidate; the page says which of them count.
cd "$(dirname "$0")/.." || exit 1
src=$(git ls-files 'crates/*/src/*.rt')

echo "== 1a enums of our own"
grep -nE '^\s*(pub(\(crate\))? )?enum ' $src
echo "== 1b flags in types, variants and signatures"
grep -nE '\b[a-z_]+: bool\b|-> bool\b' $src
echo "== 1c numbers for kinds and refusals"
grep -nE '^\s*([A-Za-z:]+|[0-9]+) => ([0-9]+|[A-Za-z]+::[A-Za-z]+),?$|Fault\(u8|if \*kind|match \*(kind|from)' $src
echo "== 1d a value that stands for none"
grep -nE "(==|!=) (b'-'|0)( |$)" $src

echo "== 2a one name in two places"
grep -hoE '^\s*(pub(\(crate\))? )?(fn|struct|enum|const) [A-Za-z_0-9]+' $src | sed -E 's/^\s*(pub(\(crate\))? )?//' | sort | uniq -d
echo "== 2b names that differ in a number, and impls that differ in a type"
grep -nE 'fn [a-z_]+(8|16|32|64)\b' $src
grep -nE '^impl.* From<' $src
echo "== 2c functions of the same shape, of which one line differs"
grep -nE 'fn (set|clear|overlay|agrees|look_both|passed|passed_fin)\b' $src
echo "== 2d types that the definitions have once more"
grep -nE '^(pub )?(data|record) (Place|Side|Segment|Connection|Verdict|Config|Stream)\b' crates/*/specs/*.antt
grep -nE 'abbrev pub (model_of|model_side)' crates/*/specs/*.antt

echo "== 3 loops that count"
grep -nE '\bwhile\b|\bfor [a-z_]+ in [0-9a-z_(]+(\(.*\))?\.\.|\bloop\b' $src
# added later: ranges with spaces in them, and numbers beside items
grep -nE '\bfor [a-z_]+ in [^{]* / [^{]*\.\.|\.enumerate\(\)' $src
grep -nE '^\s+(done|i|at|size|rest) [-+/]?= ' $src

echo "== 4 by hand what a derive or a trait does"
grep -nE 'impl.* (PartialEq|Eq|Ord|Clone|Display|Debug|From|TryFrom)(<.*>)? for|fn (of|from|number|is_same|same|list_error|place|model)\b|(e?println|eprint)!\(rt; "(words|gate): fault' $src

echo "== 5a clauses that stand in three or more functions"
grep -hE '^\s*(requires|ensures)' $src | sed -E 's/^\s*(requires|ensures)( [a-z_]+)? //; s/\b(packet|bytes|head|words|part|payload|self|window)\.(now|old|new)\b/X/g' | sort | uniq -c | awk '$1 >= 3'
echo "== 5b parameters that travel together"
grep -nE 'start: usize|at: usize|\(usize, usize\)|segment: &Segment|table: &Table, state|bits: &\[u64\]' $src

echo "== 6 buffers with a length, parallel arrays, indices"
grep -nE '^\s+(pub(\(crate\))? )?(rows|tells|bytes|bits|buffer|start|end|word|len|at): ' $src

echo "== 7 switches on which step, tables of functions"
grep -nE '\bfn\(|dyn |impl Fn|match (step|kind|op)\b' $src

echo "== 8 answers, and lemmas of our own"
for c in $(ls crates); do
  d=crates/$c/proofs
  [ -d "$d" ] || continue
  a=$(git ls-files "$d/*/Answers.antt" "$d/**/Answers.antt" | sort -u | xargs -r grep -hcE '^(pub )?[a-z][A-Za-z_0-9-]* : goal\.' | paste -sd+ | bc)
  l=$(git ls-files "$d" | grep -vE '(Answers|Invariants|Lib)\.antt$' | xargs -r grep -hcE '^(abbrev |unfoldable )?(pub )?[a-zA-Z_][^ :]* : ' | paste -sd+ | bc)
  echo "$c answers ${a:-0} lemmas ${l:-0}"
done
