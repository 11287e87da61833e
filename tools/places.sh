#!/usr/bin/env bash
# The places that docs/DESIGN-PASS.md counts, by its names for them: one line for each. Run at the top of a checkout.
S='crates/*/src/*.rt'
count() { printf '%-4s %5s  %s\n' "$1" "$(cat)" "$2"; }
# lines of the sources that have the first pattern and not the second
lines() { grep -hE -- "$1" $S | grep -vE -- "${2:-^$}" | wc -l; }
lines '\bfault\(' 'fn fault' | count 1a 'refusals as numbers: tests chained through fault'
lines '^(pub )?const (STAYS|FREED|KEY_CLEARED|PUK_CLEARED|MADE_STALE|SHUT|NEW_PIN|NEW_PIN_CLEARED): u8' | count 1b 'numbers for what becomes of a record'
lines '(==|!=) (paper::)?(FREE|SESSION|PUK|POLICY|KEY|PENDING|COUNTER)\b' | count 1c 'comparisons with a kind of record'
lines '^    (\} else )?if (k|m|kind|format|order|n|c\.kind) == ' | count 1d 'steps of a chain of ifs over a number'
lines 'let n = (s|store)\.len\(\) / RECORD_BYTES;' | count 2a 'walks over all records written out, each with its own end'
lines '^(pub )?fn [a-z_]+_at\(s: &mut' | count 2b 'edits of one record that such a walk calls'
lines '^fn (read_full|two_bytes|put_two|with_two|lower|higher|block_of|key_of|fill|room|room_for_file|has_two_equal|has_three_equal|with_name_or|with_pin_value)\(' | count 2c 'small functions that stand twice, or beside the library'"'"'s'
lines '^\s*while ' 'while let' | count 3 'loops that count by hand'
lines '/ 256|\* 256\b|/ 65536|\* 65536|16777216|72057594037927936|281474976710656' 'ensures' | count 4a 'lines that take numbers apart into bytes, or join them, by hand'
grep -hoE 'wrapping_(add|sub)_u[a-z0-9]+\(' $S | wc -l | count 4b 'wrapping sums by a free function'
grep -hoE '>> [0-9]+ \| x << ' $S | wc -l | count 4c 'rotations by two shifts'
grep -hE '^\s+([a-z_]+): \1,$' $S | wc -l | count 4d 'fields written twice, as in name: name'
lines '(ensures|requires).*\b(Keyed|Drafts|Stands|Spans|Seen) ' | count 5a 'promises that repeat a fact about a value'
lines 'requires.*(most_records|/ 256 ≤ 256|records (store|s)\.now\) ≤ )' | count 5b 'functions that ask for a store of at most 256 records'
lines 'key: &(.a )?\[u8(; 32)?\], counter: u16|^    counter: u16,' | count 5c 'functions with key and counter as two parameters'
lines '^    (pub )?(size|at|next|serverlength|clientlength): (usize|u8),|fn room(_for_file)?\(\)|let mut (md|mu|up|over|under|t) = \[0u8; [0-9]+\]' | count 6 'lengths and places beside fixed buffers, and tables of places'
lines 'Flaw::|Choice::|Edit::|Lot::|Under::' | count 7 'values that choose which test or edit is run'
find crates/*/proofs -name Answers.antt | xargs cat | wc -l | count 8a 'lines of answers'
find crates/*/proofs -name '*.antt' | xargs cat | wc -l | count 8b 'lines of proofs in all'
