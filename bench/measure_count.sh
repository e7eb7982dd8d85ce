#!/bin/sh
# Times `dp count` on a CSV file of 100 MB beside a plain loop over the crate csv in Rust.
# Needs cargo, python3 and GNU time, and Debian's package librust-csv-dev for the loop. It is no part of the gate.
set -eu
here=$(cd "$(dirname "$0")/.." && pwd)
# The launcher builds the program where it is not built or is older than a source; what is timed is the program itself.
"$here/dp" >/dev/null 2>&1 || true
dp=$here/crates/dp/out/dp
work=$(mktemp -d)
trap 'rm -rf "$work"' EXIT

python3 - "$work" <<'PY'
import sys
work = sys.argv[1]
with open(work + "/big.csv", "w") as text:
    size = 0
    person = 0
    while size < 100_000_000:
        line = f'{"FM"[person & 1]},{(37 * person + 11) % 100},D{7 * person % 5},"person {person}",{person * 7919 % 10**9}\n'
        text.write(line)
        size += len(line)
        person += 1
with open(work + "/draws.txt", "w") as draws:
    draws.write("0 " * 21)
PY

mkdir -p "$work/plain/src" "$work/plain/.cargo"
cat > "$work/plain/Cargo.toml" <<'TOML'
[package]
name = "plain"
version = "0.1.0"
edition = "2021"

[dependencies]
csv = "1"
TOML
cat > "$work/plain/.cargo/config.toml" <<'TOML'
[source.crates-io]
replace-with = "debian"

[source.debian]
directory = "/usr/share/cargo/registry"
TOML
cat > "$work/plain/src/main.rs" <<'RUST'
fn main() {
    let path = std::env::args().nth(1).expect("a file name");
    let text = std::fs::read(path).expect("the file");
    let mut reader = csv::ReaderBuilder::new()
        .has_headers(false)
        .flexible(true)
        .from_reader(text.as_slice());
    let mut row = csv::ByteRecord::new();
    let mut count = 0u64;
    while reader.read_byte_record(&mut row).expect("a record") {
        count += 1;
    }
    println!("{count}");
}
RUST
(cd "$work/plain" && cargo build --release --offline --quiet)

for _ in 1 2 3; do
    /usr/bin/time -f "dp count    %e s, %M KB" "$dp" count "$work/big.csv" "$work/draws.txt" 0 20
    /usr/bin/time -f "plain loop  %e s, %M KB" "$work/plain/target/release/plain" "$work/big.csv"
done
