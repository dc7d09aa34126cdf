#!/usr/bin/env bash
# Lists the lines of src/ in which a place of docs/DESIGN-PASS.md may stand, point by point, and counts them. Run it from
# the top of the repository; with a number it prints the lines of that point too. It finds candidates: which of them are
# places is said on that page.
set -u
src() { grep -rnE --include='*.rt' "$@" crates/*/src | grep -vE '^[^:]*:[0-9]*: *(//|ghost use)'; }
show() { # point, what, then lines on stdin
    local lines; lines=$(cat)
    printf '%s %-58s %s\n' "$1" "$2" "$(printf '%s' "$lines" | grep -c .)"
    if [ "${only:-}" = "$1" ]; then printf '%s\n' "$lines"; fi
}
only=${1:-}
src '^(pub(\(crate\))? )?enum ' | show 1 'enums of our own'
src '\(bool,|fn (push|add|take|put)[a-z_]*\(.*-> bool|let mut [a-z_]+ = (true|false);' | show 1 'flags, and refusals told by a bool'
src '=> [0-9]+,|action as usize|next: u16|heads: \[u16|second: usize|while h != 0|fn number\(self' | show 1 'numbers for kinds, for none and for refusals'
src 'if self\.len \+ 2 <= [a-z]' | show 1 'a handle tested by hand before it is used'
grep -rnE --include='*.rt' -A1 'else \{$' crates/*/src | grep -E 'return (Err|None)' | show 1 'let .. else { return .. } where ? would do'
grep -rhoE --include='*.rt' 'fn [a-z_]+' crates/*/src | sort | uniq -c | awk '$1 > 1' | show 2 'names of functions that stand twice or more'
src '^(pub(\(crate\))? )?struct ' | show 2 'structs'
src 'for [a-z_]+ in .*\.\.|while ' | show 3 'loops over a range, and while loops'
src '^impl.* (PartialEq|Eq|PartialOrd|Ord|Clone|Copy|Hash|Default|Debug|([a-z]+::)?Display|From<.*>|TryFrom<.*>) for ' | show 4 'impls of comparing, copying, converting and printing'
src '== [a-z_.]+ && .* == |fn is\(|fn [a-z]+_of\(.*Option<|_letter\(.*->|Operation::[A-Z][a-z]* => Action' | show 4 'comparing, converting and printing by hand'
grep -rhoE --include='*.rt' 'requires( [a-z]+)? \{ [A-Za-z.]+ ' crates/*/src | sed -E 's/requires( [a-z]+)? //' | sort | uniq -c | awk '$1 > 2' | show 5 'facts that three or more contracts require'
src 'len: usize|\[[A-Za-z0-9<>:]+; [0-9A-Z]+\]' | show 6 'lengths, and tables of fixed size'
src 'match (name|word|kind|call|action|step|op|\(op)' | show 7 'switches by name, kind or operation'
find crates/*/proofs -name 'Answers.antt' | xargs cat | grep -E '^pub ' | show 8 'answers'
find crates/*/proofs -maxdepth 1 -name '*.antt' | xargs cat | grep -E '^ *pub [a-z]' | grep -v 'pub mod' | show 8 'lemmas and definitions for proofs'
