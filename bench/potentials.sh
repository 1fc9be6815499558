#!/bin/sh
# Instructions per link of a table of potentials. Needs rt, python3 and valgrind; where nothing was proved before it takes some minutes.
#
# It builds a small program that fills a table over level steps, so many cells a point. With a strong traction every link is possible;
# with none the half that would gain speed is forbidden by the traction. It counts the instructions of one and of two more tables under
# callgrind; the difference is what one table takes.
set -eu
. "$(dirname "$0")/crate.sh"

cat >"$main" <<'RT'
//! Fills a table of potentials, and counts the cells that have a value.
#![tactic(auto)]

ghost use Rattle.std.specs.Prelude.{◌≡◌, ◌<◌};

use drive_rules::{Rules, read_route};
use potential_table::{Potentials, Priced, potentials, prices_for};
use rail_base::Traction;
use speed_cells::Cells;
use std::alloc::{AllocError, Global};
use std::env;
use std::marker::Brand;
use std::sync::ledger::{Blank, Ledger};
use step_energy::Steps;

/// Level steps of 100 m up to 1000 cm/s, with strong brakes, and with a strong traction or none.
fn route_text(alloc: Global, steps: u32, traction: bool) -> Result<Vec<u8>, AllocError> {
    let mut text = Vec::new(alloc);
    text.extend_from_slice(b"route 1\ntrain 1000 1000 0 0 0\ntop 1000\n")?;
    if traction {
        text.extend_from_slice(b"traction 2000000\nbrake 2000000\nlatest 172800\n")?;
    } else {
        text.extend_from_slice(b"traction 0\nbrake 2000000\nlatest 172800\n")?;
    }
    for _ in 0..steps {
        text.extend_from_slice(b"step 100 0 1000\n")?;
    }
    text.extend_from_slice(b"end\n")?;
    Ok(text)
}
RT
echo "$reading_rules" >>"$main"
cat >>"$main" <<'RT'
/// One cell a point: 0 at both ends, and 1 to 1000 between them.
fn whole(alloc: Global, points: u32) -> Result<Cells, AllocError> {
    let mut pairs = Vec::new(alloc);
    pairs.push((0, 0))?;
    for _ in 2..points {
        pairs.push((1, 1000))?;
    }
    pairs.push((0, 0))?;
    Cells::whole(alloc, pairs.as_slice())
}
RT
echo "$splitting_cells" >>"$main"
cat >>"$main" <<'RT'
fn fill(alloc: Global, rules: &Rules, cells: &Cells, rounds: u32) -> Result<u32, AllocError> {
    if cells.points() != rules.points() || rules.timings().len() != 1 {
        return Ok(0);
    }
    let prices = prices_for(alloc, rules, &[1000])?;
    let cost = Priced::make(rules, &Traction, &prices);
    for _ in 0..rounds {
        let _ = potentials(alloc, cells, &cost)?;
    }
    let table = potentials(alloc, cells, &cost)?;
    let mut found = 0u32;
    for k in 0..cells.points() {
        for c in 0..cells.of(k) {
            if table.of(k, c).is_some() {
                found = found.wrapping_add(1);
            }
        }
    }
    Ok(found)
}

fn main(rt: HostRuntime) -> anyhow::Result<()> {
    let alloc = rt.alloc();
    let mut numbers = Vec::new(alloc);
    for word in env::args(&rt)? {
        numbers.push(word.parse::<u32>().unwrap_or(0))?;
    }
    let [_, points, most, traction, rounds] = numbers.as_slice() else {
        println!(rt; "points, cells, traction and rounds are wanted")?;
        return Ok(());
    };
    let text = route_text(alloc, points.saturating_sub(1), *traction > 0)?;
    let mut cells = whole(alloc, *points)?;
    for _ in 0..14 {
        halve(&mut cells, *most as usize)?;
    }
    match rules(alloc, &text) {
        Some(rules) => println!(rt;
            "{} cells, {} of them with a value",
            cells.count(),
            fill(alloc, &rules, &cells, *rounds)?
        )?,
        None => println!(rt; "the route is refused")?,
    }
    Ok(())
}
RT
proof_of_rules
proof whole/Invariants.antt <<'ANTT'
use Rattle.std.specs.Prelude.{◌≤◌, length, All}
use Rattle.bench.proofs.whole.Given as goal

abbrev pub invariant-loop : goal.invariant-loop
invariant-loop l = (1 ≤ length l.pairs.items) × All (λ p. (p.0 ≤ p.1) × (p.1 ≤ 12000)) l.pairs.items
ANTT
build "drive_rules rail_base step_energy speed_cells time_multipliers potential_table anyhow"

for size in "400 5" "41 1000"; do
    for traction in 1 0; do
        one=$(counted $size $traction 1)
        two=$(counted $size $traction 2)
        python3 -c "
points, cells, traction, table = $(echo "$size" | tr ' ' ','), $traction, $two - $one
links = (points - 3) * cells * cells + 2 * cells
kind = 'every link possible' if traction else 'half of the links forbidden by the traction'
print(f'{points} points of {cells} cells, {kind}: {table} instructions a table, {table / links:.1f} a link')"
    done
done
