#!/bin/sh
# The instructions of the family of composed drives (`compose`) and of the three boxes (`improve`), on the 40 km line by steps of 100 m and on
# random routes of 400 and of 4,000 steps. Needs rt, awk and valgrind.
#
# It builds a small program that reads a route, or a line, a train and a service, and then stops, composes a drive, or has it improved too.
# Each count is held against the most that is allowed; that of what stands before is taken off.
set -eu
. "$(dirname "$0")/crate.sh"
. "$(dirname "$0")/random_route.sh"
program=$work/crates/bench/out/bench

cat >"$main" <<'RT'
//! Composes a drive for a route, or for a line, a train and a service, on standard input, and has it improved by boxes.
#![tactic(auto)]

ghost use Rattle.std.specs.Prelude.{◌≡◌, ◌<◌, ◌≤◌};

use drive_rules::{Rules, Setup, read_route};
use line_file::{read_line, read_service};
use phase_composer::{Composed, compose};
use proposers::{Dips, EarlyBraking, LateCoasting, Proposer, improve};
use rail_base::Traction;
use std::alloc::{AllocError, Global};
use std::env;
use std::io::{self, Read};
use std::marker::Brand;
use std::sync::ledger::{Blank, Ledger};
use step_energy::Steps;
use train_file::read_train;
RT
echo "$reading_rules" >>"$main"
echo "$reading_files" >>"$main"
cat >>"$main" <<'RT'
/// How many speeds the composed drive has, and how many drives the boxes offered: none where no drive is on time.
fn composed(alloc: Global, rules: &Rules, boxed: bool) -> Result<Option<(usize, u32)>, AllocError> {
    let Composed::Best(drive) = compose(alloc, rules, &Traction)? else {
        return Ok(None);
    };
    let mut best = drive;
    let mut offered = 0u32;
    if boxed {
        let mut boxes: Vec<Box<dyn Proposer>> = Vec::new(alloc);
        boxes.push(Box::new(alloc, Dips::new(alloc))?)?;
        boxes.push(Box::new(alloc, LateCoasting::new(alloc))?)?;
        boxes.push(Box::new(alloc, EarlyBraking::new(alloc))?)?;
        improve(alloc, &mut boxes, rules, &Traction, &mut best)?;
        for one in boxes.iter() {
            offered = offered.saturating_add(one.taken());
        }
    }
    Ok(Some((best.speeds().len(), offered)))
}

fn main(rt: HostRuntime) -> io::Result<()> {
    let (mut route, mut compose, mut boxed) = (false, false, false);
    for word in env::args(&rt)? {
        route = route || word.as_str() == "route";
        boxed = boxed || word.as_str() == "boxes";
        compose = compose || word.as_str() == "compose" || boxed;
    }
    let mut text = Vec::new(rt.alloc());
    rt.stdin().read_to_end(&mut text)?;
    let made = if route {
        rules(rt.alloc(), text.as_slice())
    } else {
        rules_of_files(rt.alloc(), text.as_slice(), 100)
    };
    let Some(rules) = made else {
        return println!(rt; "refused");
    };
    if !compose {
        return println!(rt; "{} steps", rules.steps());
    }
    match composed(rt.alloc(), &rules, boxed) {
        Ok(Some((points, offered))) => println!(rt; "{points} points, {offered} offers"),
        Ok(None) => println!(rt; "late"),
        Err(_) => println!(rt; "memory"),
    }
}
RT
proof_of_rules
proof_of_files
build "rail_specs rail_base step_energy line_file train_file joined_rules drive_rules speed_envelopes phase_composer proposers" </dev/null

failed=0
held() { # of what, the instructions, and the most in millions
    awk -v w="$1" -v n="$2" -v m="$3" 'BEGIN {
        ok = n <= m * 1e6
        printf "%-48s %8.1f million (at most %s) %s\n", w, n / 1e6, m, ok ? "ok" : "TOO MUCH"
        exit !ok }' || failed=$((failed + 1))
}
measured() { # of what, the file, the kind of input, and the most in millions
    read=$(counted "$3" read <"$2")
    family=$(counted "$3" compose <"$2")
    boxes=$(counted "$3" boxes <"$2")
    held "$1: compose" $((family - read)) "$4"
    held "$1: the three boxes" $((boxes - family)) "$4"
    sed 's/^/    /' "$work/text"
}

mkdir -p "$work/run"
cd "$work/run"
cp "$top/examples/40km/line.csv" "$top/examples/40km/service.csv" "$top/examples/40km/train.toml" .
files >files
random_route 400 >short
random_route 4000 >long
measured "40 km, steps of 100 m" files line 250
measured "400 steps" short route 2500
few=$((family - read))
measured "4,000 steps" long route 2500
many=$((family - read))
awk -v few="$few" -v many="$many" 'BEGIN {
    printf "ten times the steps take %.1f times the instructions (at most 12)\n", many / few
    exit !(many <= 12 * few) }' || failed=$((failed + 1))
exit "$failed"
