#!/bin/sh
# Instructions per byte of reading a line file of 20,000 rows. Needs rt, python3 and valgrind.
#
# It builds a small program over the crate line_file, runs it on a file of 20,000 rows and on one whose header is refused at once, and
# counts the instructions of both under callgrind. The difference is the reading.
set -eu
. "$(dirname "$0")/crate.sh"

cat >"$main" <<'RT'
#![tactic(auto)]

use line_file::read_line;
use std::io::Read;
use std::{fs, io};

fn main(rt: HostRuntime) -> io::Result<()> {
    let mut file = fs::open(&rt, "line.csv")?;
    let mut text = Vec::new(rt.alloc());
    file.read_to_end(&mut text)?;
    match read_line(rt.alloc(), text.as_slice()) {
        Ok(line) => println!(rt; "{} limits", line.limits.items().len()),
        Err(fault) => println!(rt; "{fault:?}"),
    }
}
RT
build "line_file"

mkdir "$work/at"
cd "$work/at"
python3 - <<'PY'
rows = ["kind,from,to,value"]
for k in range(10000):
    rows.append(f"limit,{90 * k},{90 * (k + 1)},{60 + k % 200}")
    rows.append(f"gradient,{90 * k},{90 * (k + 1)},{k % 101 - 50}")
text = "\n".join(rows) + "\n"
open("good.csv", "w").write(text)
open("bad.csv", "w").write("k" + text)
print(len(text), "bytes")
PY
cp good.csv line.csv
good=$(counted)
cp bad.csv line.csv
bad=$(counted)
python3 -c "print(f'{$good - $bad} instructions, {($good - $bad) / $(wc -c <good.csv):.1f} a byte')"
