#!/bin/bash
# Lists, for each point of docs/DESIGN-PASS.md, the lines of crates/*/src that may be places of it, and their number.
cd "$(dirname "$0")/.." || exit 1
src() { find crates/*/src -name '*.rt' | sort; }
show() { # NAME PATTERN [WITHOUT]
    lines=$(src | xargs grep -nE "$2" | grep -vE "${3:-^$}" | grep -vE '^[^:]*:[0-9]*: *(///|//!|ghost use)')
    echo "== $1: $(printf '%s' "$lines" | grep -c '^')"
    [ -n "$LIST" ] && echo "$lines"
}
show '1 enums' '^ *(pub(\([a-z]+\))? )?enum '
show '1 numbers of faults and marks' '(number|layer): [0-9]+,|Refused\([0-9]+\)|mark: [0-9]|open_leaf\(coded, [0-9]\)' 'cases/|levels/'
show '1 laws that answer a number' 'fn .*\(\) -> u8'
show '1 refusals as a bool' 'fn (finish|clear_head|push)\(.*-> bool'
show '1 returns of None by hand' 'return None;' 
show '1 flags beside a value' 'let mut (seen|awaits_size|protected|found) |mark: u32'
show '2 functions of one name' 'fn (is_blank|is_more|continues_field|trimmed|trimmed_end|put|zero|unset|read_all|main|size_fault|data_fault|early|overrun|left_over|too_many_blanks|find|name_len|run_len|give|copy|new|is_between|run|step|finish)\b' 'cases/'
show '3 while and counted for' '\bwhile |for .* in 0\.\.' 'cases/'
show '3 counters' '(\+|-)= ' 'cases/'
show '3 for over elements' '^ *for ' 'cases/'
show '4 true and false by match' '=> (true|false)\b' 'cases/'
show '4 casts' ' as (u8|u16|u32|u64|u128|usize)\b' 'cases/'
show '4 matches! in place of equality' 'matches!'
show '6 lengths beside buffers' '^ *(len|used|count|from|to|left): (usize|u32),$'
show '7 dyn, fn pointers, closures' '\bdyn |: fn\('
