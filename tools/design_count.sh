#!/bin/bash
# Counts the places of each point of docs/DESIGN-PASS.md in the sources. Run it at the top of a checkout.
# Tests (from '#[cfg(test)]' on) are left out. With -v it prints the places too.
verbose=$1
sources() {
    for f in $(git ls-files 'crates/*/src/*.rt' | grep -v '/tests.rt$'); do
        awk -v f="$f" '/^#\[cfg\(test\)\]/{exit} {print f ":" FNR ":" $0}' "$f"
    done
}
all=$(sources)
count() {
    local found
    found=$(grep -E ":[0-9]+:.*($2)" <<<"$all" | grep -vE ':[0-9]+: *//')
    printf '%4d  %s\n' "$(grep -c . <<<"$found")" "$1"
    [ "$verbose" = -v ] && [ -n "$found" ] && sed 's/^/          /' <<<"$found"
}
echo '1. numbers for kinds and refusals, values that stand for none, flags'
count 'numbers for the kinds of words' '0x[1-9a-f]000_0000|% (268435456|0x1000_0000)|>> 28|const (HEAD|RECORD)'
count 'arms that give a variant its number' '=> [0-9]+,$'
count 'a value that stands for none' 'number == 0|u32::MAX'
count 'parameters and fields that are flags' '[a-z]: bool'
echo '2. twins'
count 'functions that only lend another a buffer, and those they lend it to' 'fn (fetch|write_words|read_page|slot_at|load|save|write_slot|link|[a-z_]+_by)[<(]'
count 'refusals of a length or a block at the head of a read or write' 'DeviceFault::(Length|Range)\([A-Z]'
count "a layer's own mark as a constant" 'const (MARK|OWN): LayerMark'
count 'edits of a page that give a new page' 'pub fn .*-> Page$'
count 'helpers that stand in two crates' 'fn (clear|copy_part)\('
count 'comparisons of words with those written again' 'fn (is_page|is_slot|same_words)\('
echo '3. loops that count an index'
count 'loops over a range of indices' 'for [a-z_]+ in .*\.\.'
echo '4. equality, copying, conversion by hand'
count 'functions that compare, copy, clear or convert' 'fn (same_words|copy_all|copy_part|clear|insert_among|remove_among|code|number|kind|payload|word|clone_word|read_clone|pairs_of|leaf_of|place|discard)\('
count 'arms that map a variant to itself or to its content' '=> m,$|Ok\(\(\)\) => Ok\(\(\)\),|None => None,'
echo '5. facts that stand in many contracts'
count "a device's or a store's soundness" '(sound|stays) \{|requires \{ .*Device\.sound'
count 'a width or size that a volume uses' '(usable|wide) \{ .*(Usable|Wide|32 ≤)'
count 'as many counts as blocks, or a block among the counts' 'requires (long|within|on) \{'
count "a grant's place, length and blocks" 'ensures (next|len|blocks) \{'
count 'a device and counts as two parameters' 'counts: &mut Counts,'
echo '6. buffers with a length beside, parallel arrays'
count 'fields and parameters that are a length or a place of a buffer beside them' '(len|next): usize'
count 'buffers of the largest size, used in part' '\[0(u32)?; (40|64)\]'
count 'parallel slices' 'persisted: &.a mut'
echo '7. switches on which step to run'
count 'which part of the task' 'Part::'
echo '8. lines of proofs, by crate'
for c in crates/*; do
    printf '%6d  %s\n' "$(git ls-files "$c/proofs" | xargs cat | wc -l)" "$(basename "$c")"
done
