#!/bin/bash
# Lists where the forms that docs/DESIGN-PASS.md counts stand in crates/*/src at a commit, a row for each form.
# A line is a candidate: the page says which of them are places.
# Use, at the top of the repository: tools/places.sh [COMMIT]
at=${1:-HEAD}
g() { git grep -nE "$@" "$at" -- 'crates/*/src/*.rt' | sed "s/^$at://"; }
row() {
    local found
    found=$(grep -v '^--$' | sort -u)
    printf '== %s (%s)\n' "$1" "$(printf '%s' "$found" | grep -c .)"
    [ -z "$found" ] || printf '%s\n' "$found" | sed 's/^/   /'
}
g '^ *(pub(\(crate\))? )?enum ' | row '1a own enums'
g 'Option<Refusal>|Some\(refusal\)' | row '1b a refusal in an Option'
g 'Err\((\w+)\) => (return )?Err\(\1\)|None => None' | row '1c an error or an absence handed on by a match'
g -A1 '^ *let (Some|Ok)\(.*else \{$' | grep -E 'return Err' | row '1d let .. else that makes an error of an absence'
g '(self\.|^ *if )(len|count) == 0' | row '1e a length of zero as absence'
g -A3 '^ *if .*\{$' | grep -E -- '- +None$' | row '1f if .. Some(..) else None'
g '(scope|identifier): u8,$' | row '1g a number for a kind in a struct'
g -A8 '^pub fn .*-> u8$' | grep -E -- '- +0$' | row '1h a number handed back for nothing'
g -A9 'fn copy_packet' | grep -E 'usize$' | row '1i zero for no packet'
git grep -nE '=> 0,$|=> 255,|0xFF, false\)|number: 0,|None => Reading::empty|Damage.*, 0\)|return 0;' "$at" -- 'crates/*_test/src/*.rt' | sed "s/^$at://" | row '1j a number for none in tests'
g 'unwrap_or\(0\)' | row '1k zero for a refusal'
g 'fn (damaged|wrong)_(request|event)|fn (number|refused|first_wrong)(<.*>)?\(|fn put\(out|fn put\(buffer|fn (hex|decimal)_?[a-z]*(<.*>)?\(|fn write_(event|answer|framed)|fn lose|struct (Places|Identifiers|Listed|Seconds|Tenths|Items|Occurrences)\b|impl.* From<Alloc' |
    row '2 functions and types that differ in a type, a size or a constant'
g 'while |\+= 1;|-= 1;|\bat (=|\+=) |for \w+ in 0\.\.|\.enumerate\(\)|start = ' | grep -v '///' | row '3 indices, counts and places that a loop keeps'
g 'impl (Key|fmt::Display|Default|PartialEq|PartialOrd|Ord|Clone|TryFrom)|fn (number|words|compare|awaits|remembers|is_dash|state_word)\b|fn switch\(on|\* 256|% 256|/ 256|\|\| .* [<>] 4224|len >= 1' |
    row '4 equality, order, conversion and printing by hand'
g '(fn .*<B: Board>\(.*marks: &Marks|marks: &Marks,|delay: Seconds,|retry: Tenths,|retry: Tenths[,)]|carrier: &mut C,|addresses: Addresses,|heap: Global, .*words|destination: u8, message)' |
    row '5 parameters that travel together'
g '^ *(pub(\(crate\))? )?\w+: \[[A-Za-z0-9]+; [0-9]+\],|let mut \w+ = \[.*; 64\]' | row '6 arrays, with a length beside them or not'
g 'dyn |Fn\(|FnMut|enum (Reader|Move|Call|Check)' | row '7 steps that are chosen'
