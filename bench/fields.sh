#!/bin/sh
# How fast the largest buffers of MBIM are read and written, at several lengths: in a program of a few lines that is
# built in a copy of the crates that this needs, and beside it by libmbim. Best of 200, the release of memory not counted.
top=$(CDPATH= cd -- "$(dirname -- "$0")/.." && pwd) || exit 70
. "$top/bench/needs.sh"
. "$top/bench/copied.sh"
needs "the Rattle kit, and Debian: gcc, libmbim-glib-dev, pkg-config, python3" rt cc pkg-config python3
pkg-config --exists mbim-glib || { echo "missing: mbim-glib (Debian: libmbim-glib-dev); nothing was done"; exit 0; }
folder=$(mktemp -d) || exit 70
trap 'rm -rf "$folder"' EXIT
trap 'exit 130' INT TERM
program=$folder/crates/time_fields
mkdir -p "$program/src"
copied "$folder" kit_bytes mbim_fields mbim_requests mbim_services
echo 'time_fields: kit_bytes mbim_fields mbim_requests mbim_services' >>"$folder/crates.txt"
cat >"$program/src/main.rt" <<'P'
#![tactic(auto)]

use mbim_fields::{FieldShape, decode_fields, encode_fields};
use mbim_services::{Service, Way, layout};
use std::time::Instant;
use std::{env, fs, io};

// Of each buffer: its path, how many bytes it has, the nanoseconds that reading and writing it takes at best, and
// whether what is written is the buffer.
fn main(rt: HostRuntime) -> io::Result<()> {
    for path in env::args(&rt)?.skip(1) {
        let buffer = fs::read(&rt, path.as_str())?;
        let Some(shape) = shape_of(path.as_str()) else {
            continue;
        };
        let mut reading = u128::MAX;
        let mut writing = u128::MAX;
        let mut same = true;
        for _ in 0..200 {
            let start = Instant::now(&rt)?;
            let Ok(val) = decode_fields(rt.alloc(), &shape, &buffer) else {
                same = false;
                break;
            };
            reading = reading.min(start.elapsed(&rt)?.as_nanos());
            let start = Instant::now(&rt)?;
            let Ok(octets) = encode_fields(rt.alloc(), &shape, &val) else {
                same = false;
                break;
            };
            writing = writing.min(start.elapsed(&rt)?.as_nanos());
            same = same && octets.as_slice() == buffer.as_slice();
        }
        let size = buffer.len();
        println!(rt; "{path} {size} {reading} {writing} {same}")?;
    }
    Ok(())
}

fn shape_of(path: &str) -> Option<FieldShape> {
    if path.contains("services") {
        return layout(Service::BasicConnect.uuid(), 16, Way::Done);
    }
    if path.contains("subscriptions") {
        return layout(Service::BasicConnect.uuid(), 19, Way::Set);
    }
    if path.contains("phonebook") {
        return layout(Service::Phonebook.uuid(), 2, Way::Done);
    }
    layout(Service::Sms.uuid(), 2, Way::Done)
}
P
python3 - "$folder" <<'P' || exit 70
import struct, sys
def numbers(*values): return struct.pack(f"<{len(values)}I", *values)
def padded(data): return data + bytes(-len(data) % 4)
# The fields in place, and behind them the data at which these pairs of an offset and a size point.
def structure(front, *parts):
    pairs, back, begin = b"", b"", len(front) + 8 * len(parts)
    for part in parts:
        pairs += numbers(begin + len(back) if part else 0, len(part))
        back += padded(part)
    return front + pairs + back
def utf16(text): return text.encode("utf-16-le")
def uuid(n): return struct.pack(">QQ", 0x9E3779B97F4A7C15 * (n + 1) % 2**64, n)
def service(n): return uuid(n) + numbers(1, 0, 20, *range(1, 21))
def subscription(n): return uuid(n) + numbers(20, *range(1, 21))
def entry(n):
    number, name = utf16(f"+4915112345{n:05}"), utf16(f"Name {n:05}")
    return numbers(n, 20, len(number), 20 + len(padded(number)), len(name)) + padded(number) + padded(name)
def message(n): return structure(numbers(n, 1), bytes((n + k) % 256 for k in range(176)))
kinds = {
    "services": (lambda parts: structure(numbers(len(parts), 8), *parts), service),
    "subscriptions": (lambda parts: structure(numbers(len(parts)), *parts), subscription),
    "phonebook": (lambda parts: structure(numbers(len(parts)), *parts), entry),
    "sms": (lambda parts: structure(numbers(0, len(parts)), *parts), message),
}
def write(kind, count):
    whole, part = kinds[kind]
    open(f"{sys.argv[1]}/{count:03}-{kind}", "wb").write(whole([part(n) for n in range(1, count + 1)]))
for kind, (whole, part) in kinds.items():
    most = (65_535 - 48 - 8) // (len(part(1)) + 8)
    for share in (16, 8, 4, 2, 1):
        write(kind, most // share)
write("phonebook", 100)
P
cc -O2 -Wall -o "$folder/theirs" "$top/bench/fields.c" $(pkg-config --cflags --libs mbim-glib) || exit 70
cd "$program" || exit 70
echo "proving and building; this takes some minutes .." >&2
rt run -- "$folder"/*-* >"$folder/out" 2>"$folder/log" || { tail -n 20 "$folder/log" "$folder/out" >&2; exit 70; }
"$folder/theirs" "$folder"/*-* >"$folder/theirs.txt" || exit 70
python3 - "$folder" <<'P'
import os, re, sys
theirs = {}
for line in open(f"{sys.argv[1]}/theirs.txt"):
    path, reading, writing = line.split()
    theirs[path] = int(reading), int(writing)
def spelled(size, nanoseconds): return f"{nanoseconds / 1000:8.1f} us {size * 1000 / nanoseconds:6.0f} MB/s"
rows = []
for line in open(f"{sys.argv[1]}/out"):
    found = re.fullmatch(r"(/\S+) (\d+) (\d+) (\d+) (true|false)", line.strip())
    if found:
        rows.append((os.path.basename(found[1]).split("-")[1], int(found[2]), found[1], int(found[3]), int(found[4]), found[5]))
for kind, size, path, reading, writing, same in sorted(rows):
    line = f"{kind:13} {os.path.basename(path).split('-')[0]:>3} parts {size:6} bytes: read {spelled(size, reading)}, written {spelled(size, writing)}"
    line += f"; libmbim reads {spelled(size, theirs[path][0])}"
    if theirs[path][1]: line += f", writes {spelled(size, theirs[path][1])}"
    print(line + ("" if same == "true" else "  WRITTEN OTHERWISE"))
P
