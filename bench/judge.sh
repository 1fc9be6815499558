#!/bin/sh
# Instructions per judged step. Needs rt, python3 and valgrind.
#
# It builds a small program that reads a route of 4,000 steps, level and falling in turn, and judges one drive over it so many times. It
# counts the instructions of 250 and of 500 rounds under callgrind; the difference is what a million judged steps take. Then it times
# 25,000 rounds, which are 100 million judged steps.
set -eu
. "$(dirname "$0")/crate.sh"

cat >"$main" <<'RT'
#![tactic(auto)]

ghost use Rattle.std.specs.Prelude.{◌≡◌, ◌<◌};

use drive_rules::{Judged, Rules, read_route};
use rail_base::Traction;
use std::alloc::{AllocError, Global};
use std::env;
use std::marker::Brand;
use std::sync::ledger::{Blank, Ledger};
use step_energy::Steps;

const STEPS: usize = 4000;

/// A route of level and of falling steps in turn.
fn route_text(alloc: Global) -> Result<Vec<u8>, AllocError> {
    let mut text = Vec::new(alloc);
    text.extend_from_slice(b"route 1\ntrain 1000 1000 1000 0 0\ntop 1000\n")?;
    text.extend_from_slice(b"traction 51000\nbrake 100000\nlatest 172800\n")?;
    for _ in 0..STEPS / 2 {
        text.extend_from_slice(b"step 100 0 1000\nstep 100 -20 1000\n")?;
    }
    text.extend_from_slice(b"end\n")?;
    Ok(text)
}

/// Full speed at every point but the ends.
fn speeds_of(alloc: Global) -> Result<Vec<u16>, AllocError> {
    let mut speeds = Vec::new(alloc);
    speeds.push(0)?;
    for _ in 1..STEPS {
        speeds.push(1000)?;
    }
    speeds.push(0)?;
    Ok(speeds)
}
RT
echo "$reading_rules" >>"$main"
cat >>"$main" <<'RT'
/// The sum of the costs that so many rounds find.
fn sum_of_costs(rules: &Rules, speeds: &[u16], rounds: u32) -> i128 {
    let mut sum = 0i128;
    for _ in 0..rounds {
        if let Judged::Kept { cost } = rules.judge(speeds, &Traction) {
            sum = sum.wrapping_add(cost);
        }
    }
    sum
}

fn main(rt: HostRuntime) -> anyhow::Result<()> {
    let alloc = rt.alloc();
    let mut rounds = 0;
    for word in env::args(&rt)? {
        rounds = word.parse::<u32>().unwrap_or(rounds);
    }
    let text = route_text(alloc)?;
    let speeds = speeds_of(alloc)?;
    match rules(alloc, &text) {
        Some(rules) => println!(rt; "{}", sum_of_costs(&rules, &speeds, rounds))?,
        None => println!(rt; "the route is refused")?,
    }
    Ok(())
}
RT
proof_of_rules
build "drive_rules rail_base step_energy anyhow"

low=$(counted 250)
high=$(counted 500)
python3 -c "print(f'{$high - $low} instructions for 1,000,000 judged steps, {($high - $low) / 1e6:.2f} a step')"
echo "100,000,000 judged steps:"
time "$work/crates/bench/out/bench" 25000
