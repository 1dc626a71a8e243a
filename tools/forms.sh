#!/usr/bin/env bash
# Counts the places of older forms in src/, and the lines of proof. docs/DESIGN-PASS.md says what each count is of.
cd "$(dirname "$0")/.." || exit 1
shopt -s globstar nullglob
src=(crates/*/src/**/*.rt)
proofs=(crates/*/proofs/**/*.antt)
lines() { grep -hE "$@" "${src[@]}" | wc -l; }
each() { grep -hoE "$@" "${src[@]}" | wc -l; }
show() { printf '%-22s %s\n' "$1" "$2"; }
show 1-enums "$(lines '^ *(pub(\([a-z]+\))? )?enum ')"
show 1-refusal-as-option "$(lines 'Option<Refusal>')"
show 1-number-of-a-kind "$(lines -- '-> u8')"
show 1-flags "$(lines '^ +(pub(\([a-z]+\))? )?[a-z_]+: bool')"
show 2-field-kinds "$(lines '^impl Field for')"
show 2-laws-outside "$(lines '^(pub )?fn (check|read|call_of|check_montage|check_tape|read_number|read_call)\(')"
show 3-while-loop "$(lines '^ *(while|loop)\b')"
show 3-counted-by-hand "$(lines '\+= 1;|\+= [a-z]+\.len\(\);')"
show 3-enumerate "$(lines 'enumerate\(\)')"
show 4-true-false-arms "$(lines '=> (true|false),$')"
show 4-conversions "$(lines 'fn (of|of_text|entry|report|number|number_of|report_of)\b')"
show 4-printed "$(lines 'impl.* Printed for|fn print<')"
show 5-rows-and-length "$(lines 'rows: &mut \[OrderRow\](,$|, len: usize)')"
show 5-reports-and-next "$(lines 'next: usize')"
show 5-header-and-bounds "$(lines 'header: &\[u8\]')"
show 5-line-is-formed "$(each 'all_formed \(take [a-z.]+ rows\.[a-z]+\) ≡ true')"
show 5-quote-is-formed "$(each 'formed(Quote)? quote ≡ true')"
show 5-line-fits "$(each '\bFits self\.[a-z]+')"
show 5-away-is-quotable "$(each 'quotable (\(Some away\)|reached) ≡ true')"
show 6-arrays "$(lines '(= |: )\[[^]&]*; [A-Z_0-9]+\]')"
show 7-pointers-and-dyn "$(lines 'dyn |: fn\(')"
show 8-lines-of-proof "$(cat "${proofs[@]}" | wc -l)"
show 8-answer-files "$(printf '%s\n' "${proofs[@]}" | grep -c Answers)"
