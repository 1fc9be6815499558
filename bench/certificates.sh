#!/bin/sh
# Instructions and memory of reading a certificate, and instructions of checking one. Needs rt, python3, valgrind and /usr/bin/time; where
# nothing was proved before it takes some minutes.
#
# A small script, which has nothing of the planner, makes a route of 40 km and a certificate for it: the greatest drive, even cells over the
# exact ranges, and the least chains over them at one price. It says how many links are possible. A small program reads the certificate and checks
# it so many times; from the counts of runs under callgrind follows what one more reading and one more check take.
set -eu
. "$(dirname "$0")/crate.sh"

cat >"$main" <<'RT'
//! Reads a certificate and checks it, so many times each.
#![tactic(auto)]

ghost use Rattle.std.specs.Prelude.{◌≡◌, ◌<◌};

use certificate_checker::{Refused, check};
use drive_rules::{Rules, read_route};
use dual_certificate::{CertFault, Certificate, read};
use rail_base::Traction;
use std::alloc::Global;
use std::env;
use std::io::{self, Read};
use std::marker::Brand;
use std::sync::ledger::{Blank, Ledger};
use step_energy::Steps;

RT
echo "$parting$reading_rules" >>"$main"
cat >>"$main" <<'RT'
/// How many bytes of the text have been read, so many times over.
fn read_often(alloc: Global, text: &[u8], times: u32) -> Result<u32, CertFault> {
    let mut points = 0u32;
    for _ in 0..times {
        let certificate = read(alloc, text)?;
        points = points.wrapping_add(certificate.points.items().len() as u32);
    }
    Ok(points)
}

/// Checks a certificate so many times.
fn check_often(alloc: Global, rules: &Rules, text: &[u8], times: u32) -> Option<Refused> {
    let Ok(certificate) = read(alloc, text) else {
        return Some(Refused::NoMemory);
    };
    for _ in 0..times {
        if let Err(refused) = check(alloc, rules, &Traction, &certificate) {
            return Some(refused);
        }
    }
    None
}

fn main(rt: HostRuntime) -> io::Result<()> {
    let mut numbers = Vec::new(rt.alloc());
    for word in env::args(&rt)? {
        numbers.push(word.as_str().parse::<u32>().unwrap_or(0))?;
    }
    let [_, reads, checks] = numbers.as_slice() else {
        return println!(rt; "reads and checks are wanted");
    };
    let mut text = Vec::new(rt.alloc());
    rt.stdin().read_to_end(&mut text)?;
    let (route, certificate) = parted(text.as_slice());
    let Some(rules) = rules(rt.alloc(), route) else {
        return println!(rt; "the route is refused");
    };
    if *reads > 0 {
        match read_often(rt.alloc(), certificate, *reads) {
            Ok(points) => println!(rt; "{points} points")?,
            Err(fault) => println!(rt; "{fault:?}")?,
        }
    }
    if *checks > 0 {
        match check_often(rt.alloc(), &rules, certificate, *checks) {
            None => println!(rt; "certified")?,
            Some(refused) => println!(rt; "{refused:?}")?,
        }
    }
    Ok(())
}
RT
proof_of_rules
build "certificate_checker dual_certificate drive_rules rail_base step_energy" </dev/null

cat >"$work/make.py" <<'PY'
# Writes a route of 40 km and a certificate for it, parted by a 0, and says how many cells and possible links it has.
import sys
metres, most, price = int(sys.argv[1]), int(sys.argv[2]), int(sys.argv[3])
mass, inertia, a, b, c, top, pull, hold, limit, latest = 4000, 4200, 4000, 30, 800, 4000, 250000, 300000, 2777, 2400
n = 40000 // metres
gradients = [30 if i * metres < 15000 else -40 if i * metres < 25000 else 0 for i in range(n)]
full, brakes = 2000000 * metres * pull, 2000000 * metres * hold
def work(i, v0, v1):
    return 10000 * inertia * (v1 * v1 - v0 * v0) + 196200 * mass * metres * gradients[i] + metres * (2000000 * a + 2000 * b * v1 + c * (v0 * v0 + v1 * v1))
high = [0] + [limit] * (n - 1) + [0]
low = [0] + [1] * (n - 1) + [0]
changed = True
while changed: # what is faster than each drive falls, and what is slower rises, until all steps are kept
    changed = False
    for i in list(range(n)) + list(range(n - 1, -1, -1)):
        for speeds, by, here, there in ((high, -1, i + 1, i), (low, 1, i, i + 1)):
            while work(i, speeds[i], speeds[i + 1]) > full:
                speeds[here] += by
                changed = True
            while work(i, speeds[i], speeds[i + 1]) < -brakes:
                speeds[there] += by
                changed = True
def even(least, greatest):
    k = min(most, greatest - least + 1)
    firsts = [least + (greatest - least + 1) * j // k for j in range(k)]
    return [(f, (firsts + [greatest + 1])[j + 1] - 1) for j, f in enumerate(firsts)]
cells = [even(low[k], high[k]) for k in range(n + 1)]
values, links = [[None] * len(cs) for cs in cells], 0
values[n] = [0]
for i in reversed(range(n)):
    rest = [(f, g, q) for (f, g), q in zip(cells[i + 1], values[i + 1])]
    up = [10000 * inertia * f * f + 196200 * mass * metres * gradients[i] + metres * (2000000 * a + 2000 * b * f + c * f * f) for f, g, q in rest]
    for k, (first, last) in enumerate(cells[i]):
        down = (10000 * inertia - c * metres) * last * last
        best = None
        for j, (f, g, q) in enumerate(rest):
            w = up[j] - down
            if w > full:
                break
            if last + g < 1 or work(i, first, g) < -brakes:
                continue
            links += 1
            if q is not None:
                total = max(0, w) + price * (200000 * metres // (last + g)) + q
                best = total if best is None or total < best else best
        values[i][k] = best
energy = sum(max(0, work(i, high[i], high[i + 1])) for i in range(n))
route = f'route 1\ntrain {mass} {inertia} {a} {b} {c}\ntop {top}\ntraction {pull}\nbrake {hold}\nlatest {latest}\n'
route += ''.join(f'step {metres} {g} {limit}\n' for g in gradients) + 'end\n'
text = f'certificate 1\npoints {n + 1}\nenergy {energy}\nbound {values[0][0] - price * 1000 * latest}\nprices {price}\n'
for k in range(n + 1):
    text += f'point {high[k]} {cells[k][-1][1]} ' + ' '.join(f'{f}={"-" if q is None else q}' for (f, g), q in zip(cells[k], values[k])) + '\n'
sys.stdout.write(route + '\0' + text + 'end\n')
print(len(text) + 4, sum(len(cs) for cs in cells), links, file=sys.stderr)
PY

for size in "1000 256" "1000 51" "100 125"; do
    python3 "$work/make.py" $size 186828572 >"$work/texts" 2>"$work/counts"
    nothing=$(counted 0 0 <"$work/texts")
    read=$(counted 1 0 <"$work/texts")
    read_again=$(counted 2 0 <"$work/texts")
    checked=$(counted 0 1 <"$work/texts")
    checked_again=$(counted 0 2 <"$work/texts")
    "$work/crates/bench/out/bench" 1 1 <"$work/texts"
    for times in 0 1; do
        /usr/bin/time -f %M -o "$work/memory$times" "$work/crates/bench/out/bench" "$times" 0 <"$work/texts" >/dev/null
    done
    python3 -c "
metres, most = $(echo "$size" | tr ' ' ',')
size, cells, links = $(tr ' ' ',' <"$work/counts")
read, check = $read_again - $read, $checked_again - $checked
kept = 1024 * ($(tail -1 "$work/memory1") - $(tail -1 "$work/memory0"))
print(f'{metres} m, {cells} cells, {size} bytes, {links} possible links: a reading takes {read} instructions, {read / size:.1f} a byte,')
print(f'    and {kept} bytes of memory, {kept / size:.2f} a byte of the text; a check {check} instructions, {check / links:.1f} a possible link')"
done
