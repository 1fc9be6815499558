# Read by drive_search.sh and random_searches.sh: builds a program that searches for the drive of a line, a train and a service.
# Needs rt.
. "$(dirname "$0")/crate.sh"
. "$(dirname "$0")/sample_files.sh"
program=$work/crates/bench/out/bench
mkdir -p "$work/run"
cp "$top/examples/40km/train.toml" "$work/run/"

searched() { # what the program says at this step of metres: after the family, or after the search
    files | "$program" "$1" "$2"
}

cat >"$main" <<'RT'
//! Finds the best of the family for a line, a train and a service on standard input, parted by a 0, and searches from it.
#![tactic(auto)]

ghost use Rattle.std.specs.Prelude.{◌≡◌, ◌<◌, ◌≤◌};

use drive_rules::{Judged, Rules, Setup};
use drive_search::search_drive;
use line_file::{read_line, read_service};
use phase_composer::{Costed, compose_with_cost};
use rail_base::Traction;
use std::alloc::{AllocError, Global};
use std::env;
use std::io::{self, Read};
use std::marker::Brand;
use std::sync::ledger::{Blank, Ledger};
use step_energy::Steps;
use train_file::read_train;

RT
echo "$reading_files" >>"$main"
cat >>"$main" <<'RT'
/// What the best of the family costs, and what is found from it: none where there is no drive on time.
fn energies(alloc: Global, rules: &Rules, search: bool) -> Result<Option<(i128, i128)>, AllocError> {
    match compose_with_cost(alloc, rules, &Traction)? {
        Costed::Best(kept) => {
            let mut best = kept;
            let before = best.cost;
            if search {
                search_drive(alloc, rules, &Traction, &mut best)?;
            }
            match rules.judge(best.drive.speeds(), &Traction) {
                Judged::Kept { cost } => Ok(Some((before, cost))),
                Judged::Broken(..) => Ok(None),
            }
        }
        _ => Ok(None),
    }
}

fn main(rt: HostRuntime) -> io::Result<()> {
    let mut step: u16 = 100;
    let mut search = false;
    for word in env::args(&rt)? {
        search = word.as_str() == "search";
        step = word.as_str().parse::<u16>().unwrap_or(step);
    }
    let mut text = Vec::new(rt.alloc());
    rt.stdin().read_to_end(&mut text)?;
    let Some(rules) = rules_of_files(rt.alloc(), text.as_slice(), step) else {
        return println!(rt; "refused");
    };
    match energies(rt.alloc(), &rules, search) {
        Ok(Some((family, found))) => println!(rt; "family {family} search {found}"),
        Ok(None) => println!(rt; "late"),
        Err(_) => println!(rt; "memory"),
    }
}
RT
proof_of_files
build "drive_search rail_specs rail_base step_energy line_file train_file joined_rules drive_rules phase_composer" </dev/null
