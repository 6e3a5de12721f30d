#!/usr/bin/env bash
# Measures reading a footer as this repository builds it: one of 1,000 columns in 100 row groups, whose chunks have
# statistics, and two hostile ones, with nothing but empty chunks and with names that share a long front. The time is
# processor time, the least of several runs; a rate is the footer's bytes by that time; the memory is the most that the
# program held while it read once, in times of these bytes.
# It builds a throw-away program over a copy of the crates, and needs python3.
set -eu
. "$(dirname "$0")/throwaway.sh"
throw_away footer_bench 'pme_base thrift_compact parquet_types footer_rules parquet_fields parquet_writing parquet_meta' 'parquet_meta pme_base anyhow'
cat > "$program/src/main.rt" <<'RT'
// Times reading the footer in `footer.bin`, once for each of its words.
#![tactic(auto)]

use anyhow::{Result, anyhow};
use parquet_meta::read_file_meta;
use pme_base::Place;
use std::env;
use std::fs;
use std::time::CpuClock;

// 0: read, 1: refused
fn read(rt: &HostRuntime, bytes: &[u8]) -> u8 {
    match read_file_meta(rt.alloc(), &Place::footer(), bytes) {
        Ok(_) => 0,
        Err(_) => 1,
    }
}

fn main(rt: HostRuntime) -> Result<()> {
    let bytes = fs::read(&rt, "footer.bin")?;
    let mut least = u128::MAX;
    let mut answer = 2;
    for _word in env::args(&rt)? {
        let start = rt.thread_cpu_time()?;
        answer = read(&rt, bytes.as_slice());
        let end = rt.thread_cpu_time()?;
        least = least.min(end.saturating_sub(start).as_nanos());
    }
    if answer == 2 {
        return Err(anyhow!("no word"));
    }
    println!(&rt; "{} {least} {answer}", bytes.len())?;
    Ok(())
}
RT
cat > "$work/inputs.py" <<'PY'
import sys
def varint(n):
    out = bytearray()
    while n >= 128:
        out.append(n % 128 + 128)
        n //= 128
    return bytes(out) + bytes([n])
def number(kind, n):
    return kind, varint(2 * n if n >= 0 else -2 * n - 1)
def i16(n):
    return number(4, n)
def i32(n):
    return number(5, n)
def i64(n):
    return number(6, n)
def binary(data):
    return 8, varint(len(data)) + data
def listed(kind, items):
    head = bytes([len(items) * 16 + kind]) if len(items) < 15 else bytes([240 + kind]) + varint(len(items))
    return 9, head + b"".join(item[1] for item in items)
def struct(fields):
    out, last = b"", 0
    for id, (kind, data) in sorted(fields.items()):
        out += bytes([(id - last) * 16 + kind]) + data
        last = id
    return 12, out + b"\0"
def schema(names):
    root = struct({4: binary(b"schema"), 5: i32(len(names))})
    return listed(12, [root] + [struct({1: i32(2), 3: i32(1), 4: binary(name)}) for name in names])
def footer(names, groups, rows):
    return struct({1: i32(1), 2: schema(names), 3: i64(rows), 4: listed(12, groups), 6: binary(b"bench")})[1]
def chunk(name, group, column, start):
    bound = (group * 1000 + column).to_bytes(8, "little")
    statistics = struct({3: i64(column % 7), 5: binary(bound), 6: binary(bound)})
    return struct({2: i64(start), 3: struct({
        1: i32(2), 2: listed(5, [i32(0), i32(3)]), 3: listed(8, [binary(name)]), 4: i32(0), 5: i64(1000),
        6: i64(8123), 7: i64(8123), 9: i64(start), 12: statistics})})
def group(names, g):
    chunks = [chunk(name, g, c, 4 + 8123 * (g * len(names) + c)) for c, name in enumerate(names)]
    return struct({1: listed(12, chunks), 2: i64(8123 * len(names)), 3: i64(1000), 7: i16(g)})
names = [b"column_%04d" % c for c in range(1000)]
empty = listed(12, [struct({})] * 1_000_000)
files = {
    "columns": footer(names, [group(names, g) for g in range(100)], 100_000),
    "empty-chunks": footer([], [struct({1: empty, 3: i64(0)})], 0),
    "long-names": footer([b"n" * 300 + b"%05d" % c for c in range(32_768)], [], 0),
}
for name, data in files.items():
    open(sys.argv[1] + "/" + name, "wb").write(data)
PY
python3 "$work/inputs.py" "$program"
cp "$program/columns" "$program/footer.bin"
(cd "$program" && rt run -- 1 > "$work/ours.txt" 2> "$work/rt.log") || { cat "$work/ours.txt" "$work/rt.log" | tail -n 40; exit 1; }
cd "$program"
python3 - out/footer_bench <<'PY'
import os, shutil, subprocess, sys
for name in ["columns", "empty-chunks", "long-names"]:
    shutil.copy(name, "footer.bin")
    run = subprocess.run([sys.argv[1], "1", "2", "3", "4", "5"], stdout=subprocess.PIPE, check=True)
    size, nanos, answer = map(int, run.stdout.split())
    child = subprocess.Popen([sys.argv[1], "1"], stdout=subprocess.DEVNULL)
    _, status, usage = os.wait4(child.pid, 0)
    assert status == 0, name
    what = ["read", "refused"][answer]
    print(f"{name}: {what}, {size} bytes, {size * 1000 / nanos:.0f} MB/s, {usage.ru_maxrss * 1024 / size:.0f} times its bytes of memory")
PY
