#!/bin/sh
# Counts the places in src/ and, at the end, in proofs/, tests left out, that docs/DESIGN-PASS.md speaks of. With the argument `-v` it prints each of them.
cd "$(dirname "$0")/.." || exit 1
code() { find crates -path '*/out' -prune -o -path '*/src/*' -name '*.rt' ! -name tests.rt -print | sort; }
hits() { code | xargs grep -nE "$1" | grep -vE '^[^:]*:[0-9]+: *//'; }
show() { # a title, and the places on standard input
    places=$(cat)
    printf '%4d  %s\n' "$(printf '%s' "$places" | grep -c '')" "$1"
    [ "$verbose" ] && [ "$places" ] && printf '%s\n' "$places" | sed 's/^/        /'
}
[ "$1" = -v ] && verbose=1

hits '\b(kind|tag|letter|number|reply)\b.*\bu(8|16)\b' | show '1  numbers for kinds, tags, letters, refusals'
hits '\(bool,|, bool\)|: bool,' | show '1  a flag with a value beside it'
hits 'None => (return )?Err\(|Ok\([a-z]*\) => [a-z]+,$|=> return Err' | show '1  a match where ? would do'
code | xargs grep -hoE 'fn [a-z_0-9]+' | sort | uniq -d | show '2  names of functions that stand more than once'
hits '_(object|criterion|call|reply|level|note|of|operations)\(|fn (object|criterion|level)_[a-z]+\(' | grep ' fn \|:fn ' |
    show '2  functions named for one sort of thing'
hits 'for [a-z_]+ in .*\.\.|while |\bloop \{' | show '3  loops over a range, while, loop'
hits 'impl.*\b(Copy|Clone|PartialEq|Eq|PartialOrd|Ord|From<[A-Za-z]+>|Display) |fn (from_|to_)[a-z]+|fn (number|letter|bits)\(|fn [a-z_]*(name|words|line|digit)\(|fn (quote_note|push_number|push_escaped|after_names)\(' |
    show '4  copying, conversion and printing by hand'
hits '(requires|ensures)' | sed -E 's/^[^:]*:[0-9]+: *//; s/^(requires|ensures)( [a-z_]+)? \{/\1 {/' | sort | uniq -c |
    awk '$1 > 2 { n = $1; sub(/^ *[0-9]+ /, ""); for (i = 0; i < n; i++) print }' | show '5  the same clause in three contracts or more'
hits 'IfOk result \(λ s\. string_bytes s|OnOk result \(string_bytes' | show '5  the same frame round a text in three contracts or more'
hits 'fn .*\(([^,)]*,){2}' | show '5  three parameters or more'
hits '\[[A-Za-z]+; [A-Z]+\]|: BoundedList<|\blen: usize' | show '6  arrays with a length, arrays side by side'
hits '\bmatch |\bfn\(|\bdyn ' | show '7  matches, function pointers, dyn'
find crates -path '*/out' -prune -o -name Answers.antt -print | xargs grep -hE '^pub .* : goal' | show '8  goals answered by hand'
find crates -path '*/out' -prune -o -path '*/proofs/*' -name '*.antt' ! -name Answers.antt ! -name Invariants.antt -print | xargs grep -hE '^ *(pub )?[a-z][a-z_?-]* :' |
    show '8  lemmas and their helpers'
