#!/bin/sh
# How long reading descriptions of 1, 2, 4 and 8 MiB takes, best of five: in a program of a few lines that
# prints nothing, built in a copy of the crates that reading needs.
top=$(CDPATH= cd -- "$(dirname -- "$0")/.." && pwd) || exit 70
. "$top/bench/needs.sh"
. "$top/bench/copied.sh"
needs "the Rattle kit, and Debian: python3" rt python3
folder=$(mktemp -d) || exit 70
trap 'rm -rf "$folder"' EXIT
trap 'exit 130' INT TERM
program=$folder/crates/read_descriptions
mkdir -p "$program/src"
copied "$folder" kit_bytes qmi_shapes message_tables
echo 'read_descriptions: message_tables' >>"$folder/crates.txt"
cat >"$program/src/main.rt" <<'P'
#![tactic(auto)]

use message_tables::read_tables;
use std::time::Instant;
use std::{env, fs, io};

fn main(rt: HostRuntime) -> io::Result<()> {
    for path in env::args(&rt)?.skip(1) {
        let text = fs::read(&rt, path.as_str())?;
        if text.len() <= 16_777_216 {
            let mut best = u128::MAX;
            let mut messages = 0;
            for _ in 0..5 {
                let start = Instant::now(&rt)?;
                if let Ok(tables) = read_tables(rt.alloc(), &text) {
                    messages = tables.len();
                }
                best = best.min(start.elapsed(&rt)?.as_micros());
            }
            let size = text.len();
            println!(rt; "{size} {messages} {best}")?;
        }
    }
    Ok(())
}
P
python3 - "$folder" <<'P'
import sys
def field(n): return f'{{ "name" : "Field {n}", "format" : "{["guint8", "guint32", "string", "gint16"][n % 4]}" }}'
def message(n):
    fields = ",\n                       ".join(field(n + k) for k in range(4))
    return f'''  // *********************************************************************************
  {{ "name"    : "Message {n}",
    "type"    : "{["Message", "Indication"][n % 2]}",
    "service" : "{["CTL", "WDS", "DMS", "NAS", "WMS"][n // 2 % 5]}",
    "id"      : "0x{n // 10:04X}",
    "since"   : "1.0",
    "output"  : [ {{ "common-ref" : "Operation Result" }},
                  {{ "name" : "Part", "id" : "0x10", "mandatory" : "no", "type" : "TLV", "format" : "sequence",
                    "contents" : [ {fields} ],
                    "prerequisites" : [ {{ "common-ref" : "Success" }} ] }} ] }}'''
for megabytes in (1, 2, 4, 8):
    parts, size, n = [], 0, 0
    while size < megabytes * 2**20:
        parts.append(message(n)); size += len(parts[-1]) + 2; n += 1
    open(f"{sys.argv[1]}/{megabytes}.json", "w").write("[\n" + ",\n".join(parts) + "\n]\n")
P
cd "$program" || exit 70
echo "proving and building; this takes some minutes .." >&2
rt run -- "$folder"/1.json "$folder"/2.json "$folder"/4.json "$folder"/8.json >"$folder/out" 2>"$folder/log" || { tail -n 20 "$folder/log" "$folder/out" >&2; exit 70; }
grep -E '^ *[0-9]+ [0-9]+ [0-9]+$' "$folder/out" | while read -r size messages micros; do
    echo "$size bytes, $messages messages: $((micros / 1000)).$((micros % 1000 / 100)) ms, $((size / micros)) MB/s"
done
