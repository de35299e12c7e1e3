#!/bin/sh
# Draws 10,000 short messages of each kind and compares what the crates tell of them and make of them with `sms.py`, which was written
# apart from them, and with Gammu, where Debian's python3-gammu is there. Then it times reading, making and joining. The crates are called
# by a program of a few lines, built in a copy of the crates that it needs.
#   bench/sms.sh [COUNT [SEED]]
top=$(CDPATH= cd -- "$(dirname -- "$0")/.." && pwd) || exit 70
. "$top/bench/needs.sh"
. "$top/bench/copied.sh"
needs "the Rattle kit, and Debian: python3, perl" rt python3 perl
count=${1:-10000}
seed=${2:-sms}
folder=$(mktemp -d) || exit 70
trap 'rm -rf "$folder"' EXIT
trap 'exit 130' INT TERM
program=$folder/crates/message_lines
mkdir -p "$program/src"
copied "$folder" kit_bytes gsm_text sms_pdu print_text sms_print
echo 'message_lines: kit_bytes hex sms_pdu sms_print' >>"$folder/crates.txt"
cat >"$program/src/main.rt" <<'P'
#![tactic(auto)]

use kit_bytes::Text;
use sms_pdu::{Pdu, Pdus, join, read_pdu, submit_pdus};
use sms_print::{hex_lines, message_text};
use std::alloc::Global;
use std::time::Instant;
use std::{env, fs, io, str};

fn main(rt: HostRuntime) -> io::Result<()> {
    let mut kind = String::new(rt.alloc());
    for word in env::args(&rt)?.skip(1) {
        if kind.is_empty() {
            kind = word;
        } else {
            let text = fs::read_to_string(&rt, word.as_str())?;
            for line in text.lines() {
                tell(&rt, kind.as_str(), line)?;
            }
            kind.clear();
        }
    }
    time_messages(&rt)?;
    for count in [1_000, 2_500, 5_000, 10_000, 40_000] {
        time_joining(&rt, count)?;
    }
    Ok(())
}

fn tell(rt: &HostRuntime, kind: &str, line: &str) -> io::Result<()> {
    if kind == "read" {
        let Ok(bytes) = hex::decode(rt.alloc(), line) else {
            return Ok(());
        };
        let shown = message_text(rt.alloc(), &bytes)?;
        return print_lines(rt, "read", shown.as_slice());
    }
    let Some((number, text)) = line.split_once(' ') else {
        return Ok(());
    };
    let Ok(bytes) = hex::decode(rt.alloc(), text) else {
        return Ok(());
    };
    let Ok(text) = str::from_utf8(&bytes) else {
        return Ok(());
    };
    let number = Text::from_str(rt.alloc(), number)?;
    let text = Text::from_str(rt.alloc(), text)?;
    if let Ok(list) = submit_pdus(rt.alloc(), &number, &text, 0) {
        let shown = hex_lines(rt.alloc(), list.as_slice())?;
        print_lines(rt, "made", shown.as_slice())?;
    }
    Ok(())
}

// Prints lines as one.
fn print_lines(rt: &HostRuntime, kind: &str, shown: &[u8]) -> io::Result<()> {
    let Ok(shown) = str::from_utf8(shown) else {
        return Ok(());
    };
    let mut line = String::new(rt.alloc());
    for part in shown.lines() {
        if !line.is_empty() {
            line.push('|')?;
        }
        line.push_str(part)?;
    }
    println!(rt; "{kind} {line}")
}

// A message of 160 letters: how long it takes to make it, and to read and print it.
fn time_messages(rt: &HostRuntime) -> io::Result<()> {
    let alloc = rt.alloc();
    let number = Text::from_str(alloc, "+491701234567")?;
    let text = Text::from(letters(alloc, 160)?);
    let mut making = u128::MAX;
    let mut reading = u128::MAX;
    for _ in 0..20 {
        let start = Instant::now(rt)?;
        for _ in 0..10_000 {
            if submit_pdus(alloc, &number, &text, 0).is_err() {
                return Ok(());
            }
        }
        making = making.min(start.elapsed(rt)?.as_micros());
        let Ok(list) = submit_pdus(alloc, &number, &text, 0) else {
            return Ok(());
        };
        let Some(body) = list.as_slice().first() else {
            return Ok(());
        };
        let start = Instant::now(rt)?;
        for _ in 0..10_000 {
            message_text(alloc, body.as_slice())?;
        }
        reading = reading.min(start.elapsed(rt)?.as_micros());
    }
    println!(rt; "times 10000 messages of 160 letters, best of 20: made in {making} us, read and printed in {reading} us")
}

// Stored parts, three a message, each from another sender.
fn time_joining(rt: &HostRuntime, count: u32) -> io::Result<()> {
    let alloc = rt.alloc();
    let text = Text::from(letters(alloc, 459)?);
    let mut pdus: Vec<Pdu> = Vec::new(alloc);
    for sender in 0..count / 3 {
        let number = Text::from(format!(in alloc; "{}", 1_000_000 + sender % 1_000_000)?);
        if let Ok(list) = submit_pdus(alloc, &number, &text, 0) {
            for body in list.as_slice() {
                if let Ok(pdu) = read_pdu(alloc, body.as_slice()) {
                    pdus.push(pdu)?;
                }
            }
        }
    }
    let pdus = Pdus::from(pdus);
    let mut best = u128::MAX;
    let mut whole = 0;
    for _ in 0..8 {
        let start = Instant::now(rt)?;
        let joined = join(alloc, &pdus)?;
        best = best.min(start.elapsed(rt)?.as_micros());
        whole = joined.as_slice().len();
    }
    println!(rt; "times {count} parts, three a message, best of 8: {whole} messages joined in {best} us")
}

fn letters(alloc: Global, count: u32) -> io::Result<String> {
    let mut text = String::new(alloc);
    for _ in 0..count {
        text.push('a')?;
    }
    Ok(text)
}
P
sms() { python3 "$top/bench/sms.py" "$@"; }
sms draw read "$count" "$seed" >"$folder/drawn.read"
sms draw kept "$count" "$seed" >"$folder/drawn.kept"
sms draw made "$count" "$seed" >"$folder/drawn.made"
cat "$folder/drawn.read" "$folder/drawn.kept" >"$folder/all.read"
sms tell read <"$folder/all.read" >"$folder/wanted.read"
sms tell made <"$folder/drawn.made" >"$folder/wanted.made"
cd "$program" || exit 70
echo "proving and building; this takes some minutes .." >&2
rt run -- read "$folder/all.read" made "$folder/drawn.made" >"$folder/out" 2>"$folder/log" || { tail -n 20 "$folder/log" "$folder/out" >&2; exit 70; }
status=0
for kind in read made; do
    sed -n "s/^$kind //p" "$folder/out" >"$folder/found.$kind"
    lines=$(wc -l <"$folder/wanted.$kind")
    if cmp -s "$folder/found.$kind" "$folder/wanted.$kind"; then
        echo "$kind: $lines the same as sms.py tells"
    else
        status=1
        echo "$kind: of $lines these differ from what sms.py tells:"
        diff "$folder/wanted.$kind" "$folder/found.$kind" | head -n 40
    fi
done
if /usr/bin/python3 -c 'import gammu' 2>/dev/null; then
    tail -n "$count" "$folder/found.read" >"$folder/found.kept"
    /usr/bin/python3 "$top/bench/sms_gammu.py" kept "$folder/drawn.kept" "$folder/found.kept"
    /usr/bin/python3 "$top/bench/sms_gammu.py" made "$folder/drawn.made" "$folder/found.made"
else
    echo "missing: python3-gammu; nothing was compared with Gammu"
fi
sed -n 's/^times //p' "$folder/out"
exit $status
