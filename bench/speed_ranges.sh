#!/bin/sh
# Instructions of the search for greatest drives and exact ranges. Needs rt, awk and valgrind.
#
# usage: bench/speed_ranges.sh [STEPS]        4,000 steps if left out
#
# It builds a small program that reads a route from standard input and does one thing with it. The count of the program that only reads
# the route is taken off.
set -eu
. "$(dirname "$0")/crate.sh"
. "$(dirname "$0")/random_route.sh"

cat >"$main" <<'RT'
//! Does one thing, which the first byte of standard input names, with the route that the rest of it is.
#![tactic(auto)]

ghost use Rattle.std.specs.Prelude.{◌≡◌, ◌<◌};

use drive_rules::{Rules, read_route};
use rail_specs::Narrow;
use speed_envelopes::{greatest_drive, greatest_from, greatest_under, ranges};
use std::alloc::{AllocError, Global};
use std::io::{self, Read};
use std::marker::Brand;
use std::sync::ledger::{Blank, Ledger};
use step_energy::Steps;

/// How many caps from 12,000 down by 10 have a drive.
fn falling(alloc: Global, rules: &Rules) -> Result<u32, AllocError> {
    let mut wider = Narrow::none();
    let Some(mut drive) = greatest_under(alloc, rules, &wider)? else {
        return Ok(0);
    };
    let mut count = 0;
    for step in 0..1200u16 {
        let narrow = Narrow {
            cap: 12_000 - 10 * step,
            idle_from: 0,
            idle_to: 0,
        };
        let Some(found) = greatest_from(alloc, rules, &narrow, &wider, &drive)? else {
            return Ok(count);
        };
        drive = found;
        wider = narrow;
        count += 1;
    }
    let _ = drive;
    Ok(count)
}

/// How many of 64 runs of steps without traction up to the last point have a drive under a cap.
fn coasting(alloc: Global, rules: &Rules, cap: u16) -> Result<u32, AllocError> {
    let wider = Narrow {
        cap,
        idle_from: 0,
        idle_to: 0,
    };
    let Some(known) = greatest_under(alloc, rules, &wider)? else {
        return Ok(0);
    };
    let steps = rules.steps() as u32;
    let mut count = 0;
    for k in 0..64u32 {
        let narrow = Narrow {
            cap,
            idle_from: k * steps / 64,
            idle_to: steps,
        };
        if greatest_from(alloc, rules, &narrow, &wider, &known)?.is_some() {
            count += 1;
        }
    }
    Ok(count)
}

/// The number that the mode asks for.
fn measured(alloc: Global, rules: &Rules, mode: u8) -> Result<u32, AllocError> {
    match mode {
        b'1' => Ok(greatest_drive(alloc, rules)?.is_some() as u32),
        b'2' => Ok(ranges(alloc, rules, &Narrow::none())?.is_some() as u32),
        b'3' => falling(alloc, rules),
        b'4' => {
            let mut count = 0;
            for j in 1..33u16 {
                count += coasting(alloc, rules, 375 * j)? as u64;
            }
            Ok((count % 1_000_000) as u32)
        }
        _ => Ok(rules.steps() as u32),
    }
}
RT
echo "$reading_rules" >>"$main"
cat >>"$main" <<'RT'
/// The number that the mode asks for of a route's text.
fn measured_text(alloc: Global, text: &[u8], mode: u8) -> Option<u32> {
    let rules = rules(alloc, text)?;
    measured(alloc, &rules, mode).ok()
}

fn main(rt: HostRuntime) -> io::Result<()> {
    let mut text = Vec::new(rt.alloc());
    rt.stdin().read_to_end(&mut text)?;
    let number = match text.as_slice() {
        [mode, route @ ..] => measured_text(rt.alloc(), route, *mode),
        [] => None,
    };
    match number {
        Some(number) => println!(rt; "{number}"),
        None => println!(rt; "refused"),
    }
}
RT
proof_of_rules
proof falling/Invariants.antt <<'ANTT'
use Rattle.std.proofs.Common.{◌≡◌, ◌≤◌, ◌-◌, ◌*◌}
use Rattle.rail_specs.specs.Ranges.{IsGreatestNarrowDrive}
use Rattle.bench.proofs.falling.Given as goal

abbrev pub invariant-loop-step : goal.invariant-loop-step
invariant-loop-step l = record {
  known : IsGreatestNarrowDrive l.rules l.wider l.drive;
  cap : 12000 - 10 * l.step ≤ l.wider.cap;
  idle : l.wider.idle_to ≡ 0;
  count : l.count ≤ l.step;
}
ANTT
proof coasting/Invariants.antt <<'ANTT'
use Rattle.std.proofs.Common.{◌≤◌}
use Rattle.bench.proofs.coasting.Given as goal

abbrev pub invariant-loop-k : goal.invariant-loop-k
invariant-loop-k l = l.count ≤ l.k
ANTT
proof measured/Invariants.antt <<'ANTT'
use Rattle.std.proofs.Common.{◌≤◌, ◌*◌, ◌^◌}
use Rattle.bench.proofs.measured.Given as goal

abbrev pub invariant-loop-j : goal.invariant-loop-j
invariant-loop-j l = l.count ≤ 2 ^ 32 * l.j
ANTT
build "speed_envelopes drive_rules rail_specs step_energy" </dev/null

random_route "${1:-4000}" >"$work/route"
asked() { # the instructions of the program that does what this digit says
    (printf %s "$1" && cat "$work/route") | counted
}
reading=$(asked 0)
echo "reading the route: $reading instructions"
for digit in 1 2 3 4; do
    case $digit in
        1) what="the greatest drive" ;;
        2) what="the ranges" ;;
        3) what="1,200 greatest drives under falling caps" ;;
        4) what="2,048 greatest drives without traction from a point to the end" ;;
    esac
    count=$(asked "$digit")
    echo "$what: $((count - reading)) instructions, answer $(cat "$work/text")"
done
