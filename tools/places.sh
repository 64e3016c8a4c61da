#!/usr/bin/env bash
# Lists the places of src/ (and proofs/) at which docs/DESIGN-PASS.md looks, point by point, and counts them.
# Run it at the top of the repository. What it lists is where to look: the page says what each place is.
set -u
list() {
    local name=$1
    shift
    local hits
    hits=$("$@" 2>/dev/null)
    printf '== %s: %s\n' "$name" "$(printf '%s' "$hits" | grep -c .)"
    [ -n "$hits" ] && printf '%s\n' "$hits"
}
src() { grep -rnE -e "$1" crates/*/src; }
bare_enums() { grep -rnA1 'derive' crates/*/src | grep -B1 -E 'enum ' | grep 'derive' | grep -v 'PartialEq'; }
repeated() { grep -rhoE '(requires|ensures)( [a-z_]+)? \{.*\}' crates/*/src | sed -E 's/(requires|ensures) [a-z_]+ \{/\1 {/' | sort | uniq -c | awk '$1 >= 2'; }
bool_loops() { grep -rnE -A5 '^ +for .* in ' crates/*/src | grep -E 'return (true|false)'; }

list '1 enums' src '^(pub(\([a-z]+\))? )?enum '
list '1 enums that derive no equality' bare_enums
list '1 numbers for kinds and refusals' src '\b(flag|kind|notice|place|energy|refusal|number): u(8|64)\b'
list '1 errors as an Option, answers as a number' src '-> Option<(Fault|Unwritable|Refusal|Unsplit)>|Ok\((\(\)|_)\) => 0'
list '1 cases taken apart by hand' src '=> unreachable|let (Some|Ok)\(.*else|=> return (Err|None)'
list '2 functions of one shape' src 'fn (is_in_range|from_number|refused|line|is_plain|is_text|are_[a-z_]+|put_[a-z]+)\('
list '2 types of one shape' src 'struct (AccountNumber|Received|WaitingForm|Enrolment|Terms)\b'
list '2 loops that answer a test of each item' bool_loops
list '3 loops over an index, and counts kept by hand' src 'for [a-z_]+ in 0\.\.|\bwhile\b|[a-z_]+ [+-]= (1|used);'
list '4 conversions and comparisons by hand' src 'fn (from_[a-z]+|of_[a-z]+|of|number|row|name|line|is_same|is_of|is_blank|blank|fresh|shown|at_fault)\(|\.0 (==|!=|<|>|<=|>=) [a-z_.]+\.0'
list '5 clauses that stand twice or more' repeated
list '5 parameters that go together' src 'out: &mut \[u8\], place: usize|first: &\[u8\], rest: |total: u64[,)]'
list '6 arrays' src ': \[[^]]+; [A-Z_]+\]'
list '6 lengths beside them' src '^ +(pub )?(len|count|commas|start|taken): usize'
list '7 choices of a step, tables of functions' src '\bdyn\b|: fn\(|Box<|match act\(|match [a-z_.]*next\('
for kind in proofs specs; do
    printf '== 8 files of %s: %s, lines: %s\n' "$kind" "$(git ls-files "crates/*/$kind/*" | wc -l)" "$(git ls-files -z "crates/*/$kind/*" | xargs -0 cat | wc -l)"
done
