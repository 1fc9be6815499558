#!/bin/sh
# Instructions of a table of potentials and of a search for the best price on a line of 40 km, and how many pairs of tables a search takes.
# Needs rt, python3 and valgrind; where nothing was proved before it takes some minutes.
#
# The line rises by 3 per mille for 15 km, falls by 4 per mille for 10 km and is level then; the train has 400 tonnes, 250 kN of traction, and
# 300 kN of brakes. Every point between the ends has the same cells, halved from the speeds 1 to the limit. A search begins with price 0, or
# with a price that is told. It counts the instructions of runs with one, with two tables and with a search under callgrind.
set -eu
. "$(dirname "$0")/crate.sh"

cat >"$main" <<'RT'
//! Fills tables of potentials on a line of 40 km, and searches for the best price.
#![tactic(auto)]

ghost use Rattle.std.specs.Prelude.{◌≡◌, ◌<◌};

use drive_rules::{Rules, read_route};
use potential_table::{Priced, best_price, potentials, prices_for};
use rail_base::Traction;
use speed_cells::Cells;
use std::alloc::{AllocError, Global};
use std::env;
use std::marker::Brand;
use std::sync::ledger::{Blank, Ledger};
use step_energy::Steps;

/// Steps of this length over 40 km, from rest to rest.
fn route_text(alloc: Global, metres: u32) -> Result<Vec<u8>, AllocError> {
    let mut text = Vec::new(alloc);
    text.extend_from_slice(b"route 1\ntrain 4000 4200 4000 30 800\ntop 4000\n")?;
    text.extend_from_slice(b"traction 250000\nbrake 300000\nlatest 2400\n")?;
    let mut place = 0u32;
    for _ in 0..4000 {
        if place >= 40_000 {
            break;
        }
        let gradient = if place < 15_000 {
            30
        } else if place < 25_000 {
            -40
        } else {
            0
        };
        let step = format!(in alloc; "step {metres} {gradient} 2777\n")?;
        text.extend_from_slice(step.as_bytes())?;
        place = place.saturating_add(metres);
    }
    text.extend_from_slice(b"end\n")?;
    Ok(text)
}
RT
echo "$reading_rules" >>"$main"
cat >>"$main" <<'RT'
/// One cell a point: 0 at both ends, and 1 to the limit between them.
fn whole(alloc: Global, points: usize) -> Result<Cells, AllocError> {
    let mut pairs = Vec::new(alloc);
    pairs.push((0, 0))?;
    for _ in 2..points {
        pairs.push((1, 2777))?;
    }
    pairs.push((0, 0))?;
    Cells::whole(alloc, pairs.as_slice())
}
RT
echo "$splitting_cells" >>"$main"
cat >>"$main" <<'RT'
/// Fills so many tables at this price, and searches for the best price from there where that is asked.
fn price_of(
    alloc: Global,
    rules: &Rules,
    cells: &Cells,
    rounds: u32,
    search: bool,
    price: u64,
) -> Result<u64, AllocError> {
    if cells.points() != rules.points()
        || cells.of(0) != 1
        || rules.timings().len() != 1
        || price > 1 << 40
    {
        return Ok(0);
    }
    let prices = prices_for(alloc, rules, &[price])?;
    let cost = Priced::make(rules, &Traction, &prices);
    for _ in 0..rounds {
        let _ = potentials(alloc, cells, &cost)?;
    }
    if !search {
        return Ok(price);
    }
    let best = best_price(alloc, rules, &Traction, cells, &prices, 0)?;
    Ok(best.values().first().copied().unwrap_or(0))
}

fn main(rt: HostRuntime) -> anyhow::Result<()> {
    let alloc = rt.alloc();
    let mut numbers = Vec::new(alloc);
    for word in env::args(&rt)? {
        numbers.push(word.parse::<u32>().unwrap_or(0))?;
    }
    let [_, metres, most, rounds, search, price] = numbers.as_slice() else {
        println!(rt; "metres, cells, rounds, search and price are wanted")?;
        return Ok(());
    };
    let text = route_text(alloc, *metres)?;
    match rules(alloc, &text) {
        Some(rules) => {
            let mut cells = whole(alloc, rules.points())?;
            for _ in 0..12 {
                halve(&mut cells, *most as usize)?;
            }
            let price = price_of(alloc, &rules, &cells, *rounds, *search > 0, *price as u64)?;
            println!(rt; "{} {}", cells.count(), price)?;
        }
        None => println!(rt; "0 0")?,
    }
    Ok(())
}
RT
proof_of_rules
proof whole/Invariants.antt <<'ANTT'
use Rattle.std.specs.Prelude.{◌≤◌, length, All}
use Rattle.bench.proofs.whole.Given as goal

abbrev pub invariant-loop : goal.invariant-loop
invariant-loop l = (1 ≤ length l.pairs.items) × All (λ p. (p.0 ≤ p.1) × (p.1 ≤ 12000)) l.pairs.items
ANTT
build "drive_rules rail_base step_energy speed_cells time_multipliers potential_table anyhow"

for size in "1000 51" "1000 256" "100 125"; do
    one=$(counted $size 1 0 0)
    two=$(counted $size 2 0 0)
    searched=$(counted $size 1 1 0)
    best=$(cut -d ' ' -f 2 "$work/text")
    priced=$(counted $size 1 0 "$best")
    priced_two=$(counted $size 2 0 "$best")
    again=$(counted $size 1 1 "$best")
    near=$(counted $size 1 1 $((best + best / 50)))
    python3 -c "
metres, most = $(echo "$size" | tr ' ' ',')
points = 40000 // metres - 1
links = (points - 1) * most * most + 2 * most
free, table = $two - $one, $priced_two - $priced
cold, warm, near = [((n - $one) / table - 2) / 2 for n in ($searched, $again, $near)]
print(f'{metres} m, {most} cells a point: a table takes {free / 1e6:.1f} million instructions at price 0, {table / 1e6:.1f} at the best price,')
print(f'    {free / links:.1f} and {table / links:.1f} a pair of cells; best price $best after {cold:.1f} pairs of tables from 0, {warm:.1f} from itself,')
print(f'    {near:.1f} from 2 per cent above')"
done
