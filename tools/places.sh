#!/usr/bin/env bash
# Counts the lines of src/ that have a form of docs/DESIGN-PASS.md, in a commit or, with no argument, in the tree:
# tools/places.sh [-v] [COMMIT]. Each line has a point of that page, what is looked for, and how many lines have it; -v prints them.
set -uo pipefail
cd "$(dirname "$0")/.."
verbose=0
if [ "${1:-}" = "-v" ]; then verbose=1; shift; fi
tree=${1:-}

look() { # POINT WHAT PATTERN [clauses]: comments never count, and clauses only where asked
    local found skip='^([0-9a-f]+:)?[^:]*:[0-9]+: *(//|ghost |requires |ensures )'
    if [ "${4:-}" = clauses ]; then skip='^([0-9a-f]+:)?[^:]*:[0-9]+: *//'; fi
    found=$(git grep -nE -e "$3" $tree -- 'crates/*/src/*.rt' | grep -vE "$skip" | sort -u)
    printf '%s  %-52s %s\n' "$1" "$2" "$(printf '%s' "$found" | grep -c .)"
    if [ $verbose = 1 ] && [ -n "$found" ]; then printf '%s\n' "$found" | sed 's/^/      /'; fi
}

look 1 'a fault as an Option' 'Option<(Refusal|Fault)>|if let Some\((fault|refusal)\)'
look 1 'a Result in a Result, an own Nothing or Refused' 'Result<Result<|    (Nothing|Unknown|Refused\(Refusal\)),|Line::(Nothing|Unknown)'
look 1 'numbers for a mark, a side, a refusal' '(SHOWN|WITHHELD|BARRED): u8|marks?: .*u8|byte: u8|side: usize,$|saved: u8|match refusal\.number|_ => 0,'
look 1 'a number for none, or for not reached' 'next: usize|heads: .*[<\[]usize|link != 0|>= relations|< relations|layer: .*usize\]|layer: Vec'
look 1 'Some or None matched to Ok, Err or a bool' 'Some\(.*\) => (Ok|Err)\(|None => (Ok|Err|true|false)|Ok\(\(\)\) => Ok'
look 2 'functions of one name, twice' 'fn (scan_number|read_number|read_pair|filled|zeros|meet_list|meet_page|judge_p|judge_nk|met|begin|tell)\(.*'
look 2 'constants that stand again' '(const .*= |> |\[0u8; )(512|9_728|2_?048|40_000|128|19)\b'
look 2 'one type twice' 'enum (Asked|RuleSetting) '
look 3 'while' '^ *while '
look 3 'for over a range of numbers' 'for [a-z_]+ in .*\.\.'
look 3 'a place beside an iterator' '\.enumerate\(\)'
look 3 'a count by hand' '(count|added|i) (\+|-)= 1;|count = count'
look 4 'a mark, a kind or a bool matched by hand' '=> true,|_ => false,|matches!'
look 4 'casts and conversions by hand' ' as (usize|u64|u32|u16|u8)\b|fn (of|into_row)\('
look 5 'sizes and the like in requires' 'requires (sizes|chained|sound|fits|wide|fit|room|inside) ' clauses
look 5 'ghost fields that stand in several types' 'ghost (celled|related|balanced|within|small|room|grounded):' clauses
look 5 'parameters that travel together' '^ +(relations: usize|leaves: &|enters: &|layer: &|via: &|records: &|heads: &)'
look 6 'vectors beside one another' '(marks|table|layer|via|reading|leaves|enters|leaf|under|heads|looks): (&.* )?Vec<'
look 7 'a case for each kind, the same in each' 'Chosen(Layout|Rule)::|match made|match answers'
