#!/usr/bin/env bash
# Times the audit of a full grid, outside the gate: in a copy of the repository, by a program that is run and not proved. Such a
# program is built with checks at each step, so it takes some hundred times as long as what is built of proved code.
set -eu
cd "$(dirname "$0")/.."
copy=$(mktemp -d)
trap 'rm -rf "$copy"' EXIT
tar -c --exclude=out crates crates.txt | tar -x -C "$copy"
cd "$copy"
echo "audit_bench: readings layouts refusals" >> crates.txt
mkdir -p crates/audit_bench/src
cat > crates/audit_bench/src/main.rt <<'PROGRAM'
// Times the audit of a grid of 15 rows and 31 columns, of which every second inner cell is sensitive.
use layouts::admission::admit;
use layouts::admitted::Admitted;
use layouts::grid::Grid;
use layouts::grid::GridLayout;
use layouts::memory::Cover;
use layouts::memory::Mark;
use layouts::memory::Row;
use readings::trials::Trials;
use std::io;
use std::time::Instant;

const AUDITS: u64 = 50;

// Whether a pattern shows a cell: none, the totals, or the totals and every third open cell.
fn is_shown(pattern: usize, total: bool, need: u64, cell: usize) -> bool {
    match pattern {
        0 => false,
        1 => total,
        _ => total || (need == 0 && cell % 3 == 0),
    }
}

// Figures up to a million; or powers of two of all sizes, of which a large one's need takes many small paths; or these with the whole figure as need.
fn fill(table: &mut Vec<Row>, kind: u64) {
    let (rows, columns, wide) = (15, 31, 32);
    let mut seed: u64 = 12345;
    for row in table.iter_mut() {
        *row = Row { figure: 0, need: 0, mark: Mark::Open };
    }
    for r in 0..rows {
        for c in 0..columns {
            seed = seed.wrapping_mul(6364136223846793005).wrapping_add(1442695040888963407);
            let figure = if kind == 0 { (seed >> 33) % 1000000 + 1 } else { 1 << ((seed >> 33) % 31) };
            let whole = if kind == 2 { figure } else { figure / 5 + 1 };
            let need = if (r * columns + c) % 2 == 0 { whole } else { 0 };
            table[r * wide + c] = Row { figure, need, mark: Mark::Open };
            for k in [r * wide + columns, rows * wide + c, rows * wide + columns] {
                let old = table[k].figure;
                table[k] = Row { figure: old + figure, need: 0, mark: Mark::Open };
            }
        }
    }
}

fn main(rt: HostRuntime) -> io::Result<()> {
    let (rows, columns, wide) = (15, 31, 32);
    let Ok(grid) = Grid::new(rows, columns) else {
        return println!(rt; "no grid");
    };
    let Ok(mut admitted) = admit(rt.alloc(), &grid) else {
        return println!(rt; "not admitted");
    };
    for kind in 0..3 {
        fill(&mut admitted.memory.rows, kind);
        audit_patterns(&rt, &mut admitted, kind)?;
    }
    Ok(())
}

fn audit_patterns(rt: &HostRuntime, admitted: &mut Admitted, kind: u64) -> io::Result<()> {
    let (rows, columns, wide) = (15, 31, 32);
    for pattern in 0..3 {
        for c in 0..512 {
            let total = c / wide == rows || c % wide == columns;
            let need = admitted.memory.rows[c].need;
            admitted.memory.bench.covers[c] = if is_shown(pattern, total, need, c) { Cover::Shown } else { Cover::Withheld };
        }
        let began = Instant::now(&rt)?;
        let mut passed = 0;
        for _ in 0..AUDITS {
            let trials = Trials {
                bench: &mut admitted.memory.bench,
                network: &admitted.network,
                rows: admitted.memory.rows.as_slice(),
            };
            if trials.audit().is_none() {
                passed += 1;
            }
        }
        let each = began.elapsed(&rt)?.as_micros() / u128::from(AUDITS);
        println!(rt; "{kind} {pattern} {passed} {each}")?;
    }
    Ok(())
}
PROGRAM
echo 'kind pattern passed-of-50 microseconds'
cd crates/audit_bench
rt try 2>&1 | grep -E '^[0-9]+ [0-9]+ [0-9]+ [0-9]+$'
