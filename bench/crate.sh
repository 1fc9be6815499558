# Read by certificates.sh, compose.sh, judge.sh, line_file.sh, potentials.sh, price_search.sh, search_program.sh and speed_ranges.sh: builds a small program over the crates, in a copy of the repository. Needs rt and
# valgrind. What was proved before is copied too, so that only what changed is proved again.
top=$(cd "$(dirname "$0")/.." && pwd)
work=$(mktemp -d)
trap 'rm -rf "$work"' EXIT
cp -a "$top/crates" "$top/crates.txt" "$top/HANDLES" "$work/"

# How a program reads the rules of a route: behind `use` lines, before `main`.
reading_rules='
fn rules_of<L: Ledger>(alloc: Global, text: &[u8], blank: Blank) -> Option<Rules>
    requires name { blank.name ≡ L.name }
    requires parts { blank.parts ≡ L.parts }
    requires some { 0 < L.parts }
{
    let mut steps = Steps::<L>::new(blank);
    read_route(alloc, text, &mut steps).ok()
}

fn rules(alloc: Global, text: &[u8]) -> Option<Rules> {
    rules_of::<Brand>(alloc, text, Blank::new(1))
}
'

# How a program parts texts that stand behind one another, with a 0 between them: behind `use` lines.
parting='
/// What stands before the first 0, and what behind it.
fn parted(text: &[u8]) -> (&[u8], &[u8]) {
    for i in 0..text.len() {
        if text[i] == 0 {
            return (&text[..i], &text[i + 1..]);
        }
    }
    (text, &[])
}
'

# How a program reads the rules of a line, a train and a service, whose texts are parted by a 0: behind `use` lines.
reading_files=$parting'
/// The rules of the three files at a step.
fn rules_of_files_with<L: Ledger>(alloc: Global, text: &[u8], step: u16, blank: Blank) -> Option<Rules>
    requires name { blank.name ≡ L.name }
    requires parts { blank.parts ≡ L.parts }
    requires some { 0 < L.parts }
    requires step { (10 ≤ step) × (step ≤ 1000) }
{
    let mut steps: Steps<L> = Steps::new(blank);
    let (line, rest) = parted(text);
    let (train, service) = parted(rest);
    let Ok(line) = read_line(alloc, line) else {
        return None;
    };
    let Ok(train) = read_train(alloc, train) else {
        return None;
    };
    let Ok(service) = read_service(alloc, service) else {
        return None;
    };
    let setup = Setup::fresh(alloc, step, &service);
    Rules::make(alloc, &line, &train, &service, &setup, &mut steps).ok()
}

/// The same with a counter of its own.
fn rules_of_files(alloc: Global, text: &[u8], step: u16) -> Option<Rules> {
    rules_of_files_with::<Brand>(alloc, text, step.max(10).min(1000), Blank::new(1))
}
'

# How a program halves cells: behind `use` lines.
splitting_cells='
/// Splits each cell of two or more speeds, up to so many cells a point.
fn halve(cells: &mut Cells, most: usize) -> Result<(), AllocError> {
    for k in 0..cells.points() {
        halve_point(cells, k, most)?;
    }
    Ok(())
}

fn halve_point(cells: &mut Cells, k: usize, most: usize) -> Result<(), AllocError> {
    if k >= cells.points() {
        return Ok(());
    }
    for c in (0..cells.of(k)).rev() {
        split_one(cells, k, c, most)?;
    }
    Ok(())
}

fn split_one(cells: &mut Cells, k: usize, c: usize, most: usize) -> Result<(), AllocError> {
    if k < cells.points() && c < cells.of(k) && cells.of(k) < most {
        let cell = cells.cell(k, c);
        if cell.first < cell.last {
            cells.split(k, c)?;
        }
    }
    Ok(())
}
'

proof() { # a proof file of the program, at this place: its text is read from standard input
    mkdir -p "$(dirname "$work/crates/bench/proofs/$1")"
    cat >"$work/crates/bench/proofs/$1"
}

proof_of_rules() { # the proof that `rules` calls `rules_of` with its own names
    proof rules/Invariants.antt <<'ANTT'
use Rattle.bench.proofs.rules.Given as goal

abbrev pub ghosts-rules_of : goal.ghosts-rules_of
ghosts-rules_of a = record { name = a.blank.name; parts = a.blank.parts }
ANTT
}

proof_of_files() { # the same of `rules_of_files`
    proof rules_of_files/Invariants.antt <<'ANTT'
use Rattle.bench.proofs.rules_of_files.Given as goal

abbrev pub ghosts-rules_of_files_with : goal.ghosts-rules_of_files_with
ghosts-rules_of_files_with a = record { name = a.blank.name; parts = a.blank.parts }
ANTT
}

files() { # the three files as one text, parted by a 0
    cat line.csv
    printf '\0'
    cat train.toml
    printf '\0'
    cat service.csv
}

build() { # the program over these crates, once its main.rt is there; its status is its own, so what counts is whether it was built
    echo "bench: $1" >>"$work/crates.txt"
    (cd "$work/crates/bench" && rt run) >"$work/build" 2>&1 || true
    if ! test -x "$work/crates/bench/out/bench"; then
        cat "$work/build" >&2
        exit 1
    fi
}

counted() { # the instructions of a run of the program with these words
    valgrind --tool=callgrind --callgrind-out-file="$work/callgrind" "$work/crates/bench/out/bench" "$@" >"$work/text" 2>"$work/log" || true
    count=$(sed -n 's/.*Collected : //p' "$work/log")
    if test -z "$count"; then
        cat "$work/log" >&2
        exit 1
    fi
    echo "$count"
}

mkdir -p "$work/crates/bench/src"
main=$work/crates/bench/src/main.rt
