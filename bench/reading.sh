#!/bin/sh
# What it takes to read a client's list of subscriptions from the buffer of its command, also where thousands of events share their CIDs: best
# of twenty. In a program of a few lines that is built in a copy of the crates that this needs. READER names one that is built already.
top=$(CDPATH= cd -- "$(dirname -- "$0")/.." && pwd) || exit 70
. "$top/bench/needs.sh"
. "$top/bench/copied.sh"
needs "the Rattle kit; Debian: python3" rt python3
folder=$(mktemp -d) || exit 70
trap 'rm -rf "$folder"' EXIT
trap 'exit 130' INT TERM
mkdir "$folder/lists" && python3 "$top/bench/reading.py" "$folder/lists" || exit 70
reader=$READER
if [ -z "$reader" ]; then
    program=$folder/crates/time_reading
    mkdir -p "$program/src"
    copied "$folder" kit_bytes mbim_fields mbim_requests mbim_services subscriptions subscribe_lists
    echo 'time_reading: subscriptions subscribe_lists' >>"$folder/crates.txt"
    cat >"$program/src/main.rt" <<'P'
#![tactic(auto)]

use std::time::Instant;
use std::{env, fs, io};
use subscribe_lists::read_list;
use subscriptions::PairList;

fn main(rt: HostRuntime) -> io::Result<()> {
    let mut list = PairList::open(rt.alloc())?;
    for file in env::args(&rt)?.skip(1) {
        measure(&rt, file.as_str(), &mut list)?;
    }
    Ok(())
}

fn measure(rt: &HostRuntime, file: &str, list: &mut PairList) -> io::Result<()> {
    let buffer = fs::read(rt, file)?;
    let mut least = u128::MAX;
    let mut answer = false;
    for _ in 0..20 {
        let start = Instant::now(rt)?;
        answer = read_list(&buffer, list);
        least = least.min(start.elapsed(rt)?.as_nanos());
    }
    let pairs = list.len();
    println!(rt; "{file}: {answer}, {pairs} pairs, {least} ns")?;
    Ok(())
}
P
    echo "proving and building; this takes some minutes .." >&2
    (cd "$program" && rt run) >"$folder/log" 2>&1 || { tail -n 20 "$folder/log" >&2; exit 70; }
    reader=$program/out/time_reading
fi
cd "$folder/lists" && "$reader" *
