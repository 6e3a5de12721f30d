#!/usr/bin/env bash
# Measures the compact protocol as this repository builds it: the typed reader's `skip` over 16 MiB of structs and
# lists of small numbers in memory, and the whole of `pme thrift` over the same bytes and over hostile ones: its
# processor time, and its memory in times of the input. Of several runs the least counts.
# It builds a throw-away program over a copy of the crates, and needs python3.
set -eu
. "$(dirname "$0")/throwaway.sh"
throw_away thrift_bench 'pme_base thrift_compact' 'thrift_compact anyhow'
cat > "$program/src/main.rt" <<'RT'
// Times passing over the struct in `structs.bin`.
#![tactic(auto)]

use anyhow::{Result, anyhow};
use std::fs;
use std::time::CpuClock;
use thrift_compact::{Reader, TKind};

fn main(rt: HostRuntime) -> Result<()> {
    let bytes = fs::read(&rt, "structs.bin")?;
    let mut least = u128::MAX;
    for _ in 0..5 {
        let mut reader = Reader::new(rt.alloc(), bytes.as_slice());
        let start = rt.thread_cpu_time()?;
        let passed = reader.skip(TKind::Struct);
        let end = rt.thread_cpu_time()?;
        if passed.is_err() || reader.offset() != bytes.len() {
            return Err(anyhow!("not passed"));
        }
        least = least.min(end.saturating_sub(start).as_nanos());
    }
    println!(&rt; "{} {least}", bytes.len())?;
    Ok(())
}
RT
cat > "$work/inputs.py" <<'PY'
import random, sys
random.seed(1)
size = 16 * 1024 * 1024
def varint(n):
    out = bytearray()
    while n >= 128:
        out.append(n % 128 + 128)
        n //= 128
    return bytes(out) + bytes([n])
def number():
    return varint(2 * random.randrange(64))
def record():
    items = b"".join(number() for _ in range(6))
    return b"\x15" + number() + b"\x19\x65" + items + b"\x1c\x15" + number() + b"\0\0"
def listed(kind, unit, body=None):
    count = (size - 16) // len(unit)
    return b"\x19" + bytes([0xf0 + kind]) + varint(count) + (body(count) if body else unit * count) + b"\0"
ids = list(range(-32768, 32768))
random.shuffle(ids)
many = b"".join(b"\x01" + varint(2 * i if i >= 0 else -2 * i - 1) for i in ids) + b"\0"
files = {
    "structs": listed(12, record(), lambda count: b"".join(record() for _ in range(count))),
    "nested": listed(12, b"\x1c" * 28 + b"\x15\x02" + b"\0" * 29),
    "one-field": listed(12, b"\x15\x02\0"),
    "one-item": listed(9, b"\x13\x05"),
    "numbers": listed(5, b"\x02"),
    "any-order": listed(12, many),
}
for name, data in files.items():
    open(sys.argv[1] + "/" + name + ".bin", "wb").write(data)
PY
python3 "$work/inputs.py" "$program"
(cd "$program" && rt run > "$work/ours.txt" 2> "$work/rt.log") || { tail -20 "$work/rt.log"; exit 1; }
(cd "$top/crates/pme_cli" && rt run -- thrift > /dev/null 2>&1) || true
cd "$program"
python3 - "$work/ours.txt" "$top/crates/pme_cli/out/pme_cli" <<'PY'
import os, subprocess, sys
size, nanos = map(int, open(sys.argv[1]).read().split())
print(f"skip: {size * 1000 / nanos:.0f} MB/s of structs and lists of small numbers")
for name in ["structs", "nested", "one-field", "one-item", "numbers", "any-order"]:
    took, memory = [], 0
    for _ in range(3):
        child = subprocess.Popen([sys.argv[2], "thrift", "--file", name + ".bin"], stdout=subprocess.DEVNULL)
        _, status, usage = os.wait4(child.pid, 0)
        assert status == 0, name
        took.append(usage.ru_utime + usage.ru_stime)
        memory = max(memory, usage.ru_maxrss * 1024 / os.path.getsize(name + ".bin"))
    print(f"pme thrift, {name}: {min(took):.2f} s, {memory:.0f} times its bytes of memory")
PY
