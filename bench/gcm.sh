#!/usr/bin/env bash
# Measures AES-128-GCM as this repository builds it beside OpenSSL without AES instructions, in one run:
# open_in_place and seal_in_place in memory, checking and opening 16 MiB in pieces of 1 MiB, and the whole of `pme module`
# on a module of 16 MiB. All times are processor time, and of several runs the least counts.
# It builds a throw-away program over a copy of the crates, and needs openssl and python3.
set -eu
. "$(dirname "$0")/throwaway.sh"
throw_away gcm_bench 'pme_terms pme_base aes_block gcm_field gcm_seal crypto_module' 'aes_block gcm_seal crypto_module pme_base anyhow'
cat > "$program/src/main.rt" <<'RT'
// Times opening and sealing, and writes a module of 16 MiB.
#![tactic(auto)]

ghost use Rattle.std.specs.Prelude.{◌≡◌, length, IfSome};

use aes_block::AesKey;
use anyhow::{Result, anyhow};
use crypto_module::{Checked, Checking};
use gcm_seal::{open_in_place, seal_in_place};
use pme_base::Place;
use std::alloc::AllocError;
use std::fs;
use std::time::CpuClock;

const NONCE: [u8; 12] = [0x5a; 12];

fn text_of(rt: &HostRuntime, size: usize) -> Result<Vec<u8>, AllocError> {
    vec![in rt.alloc(); 0xa5u8; size]
}

/// The time of all turns of sealing alone, in nanoseconds.
fn seal_time(rt: &HostRuntime, key: &AesKey, text: &mut [u8], turns: u32) -> Result<u128> {
    if text.len() > 268_435_456 {
        return Err(anyhow!("too long"));
    }
    let start = rt.thread_cpu_time()?;
    for _ in 0..turns {
        let _tag = seal_in_place(key, &NONCE, b"", text);
    }
    let end = rt.thread_cpu_time()?;
    Ok(end.saturating_sub(start).as_nanos())
}

/// The time of all turns of sealing and opening again, in nanoseconds.
fn both_time(rt: &HostRuntime, key: &AesKey, text: &mut [u8], turns: u32) -> Result<u128> {
    if text.len() > 268_435_456 {
        return Err(anyhow!("too long"));
    }
    let mut refused = false;
    let start = rt.thread_cpu_time()?;
    for _ in 0..turns {
        let tag = seal_in_place(key, &NONCE, b"", text);
        if open_in_place(key, &NONCE, b"", text, &tag).is_err() {
            refused = true;
        }
    }
    let end = rt.thread_cpu_time()?;
    if refused {
        return Err(anyhow!("a tag differs"));
    }
    Ok(end.saturating_sub(start).as_nanos())
}

fn time_size(rt: &HostRuntime, key: &AesKey, text: &mut [u8], turns: u32) -> Result<()> {
    let mut sealing = u128::MAX;
    let mut both = u128::MAX;
    for _ in 0..5 {
        sealing = sealing.min(seal_time(rt, key, text, turns)?);
        both = both.min(both_time(rt, key, text, turns)?);
    }
    let opening = both.saturating_sub(sealing);
    println!(rt; "{} {opening} {sealing} {turns}", text.len())?;
    Ok(())
}

/// Hashes a piece, if it belongs to the ciphertext.
fn check_piece(checking: &mut Checking<'_>, piece: &[u8])
    ensures { checking.new.length ≡ checking.old.length }
{
    if piece.len() <= checking.left() as usize {
        checking.piece(piece);
    }
}

/// Hashes two pieces of 1 MiB.
fn check_two(checking: &mut Checking<'_>, text: &[u8])
    requires { length text.now ≡ 2097152 }
    ensures { checking.new.length ≡ checking.old.length }
{
    check_piece(checking, &text[0..1048576]);
    check_piece(checking, &text[1048576..2097152]);
}

/// Hashes four pieces of 1 MiB.
fn check_four(checking: &mut Checking<'_>, text: &[u8])
    requires { length text.now ≡ 4194304 }
    ensures { checking.new.length ≡ checking.old.length }
{
    check_two(checking, &text[0..2097152]);
    check_two(checking, &text[2097152..4194304]);
}

/// Hashes eight pieces of 1 MiB.
fn check_eight(checking: &mut Checking<'_>, text: &[u8])
    requires { length text.now ≡ 8388608 }
    ensures { checking.new.length ≡ checking.old.length }
{
    check_four(checking, &text[0..4194304]);
    check_four(checking, &text[4194304..8388608]);
}

/// Opens a piece of 1 MiB, if it belongs to the ciphertext of 16 MiB.
fn open_piece(checked: &mut Checked<'_>, piece: &mut [u8])
    requires size { length piece.old ≡ 1048576 }
    requires whole { checked.old.length ≡ 16777216 }
    ensures { checked.new.length ≡ checked.old.length }
{
    let opened = checked.opened();
    if opened % 16 == 0 && opened <= 15_728_640 {
        checked.open(piece);
    }
}

/// Opens two pieces of 1 MiB.
fn open_two(checked: &mut Checked<'_>, text: &mut [u8])
    requires size { length text.old ≡ 2097152 }
    requires whole { checked.old.length ≡ 16777216 }
    ensures { checked.new.length ≡ checked.old.length }
{
    open_piece(checked, &mut text[0..1048576]);
    open_piece(checked, &mut text[1048576..2097152]);
}

/// Opens four pieces of 1 MiB.
fn open_four(checked: &mut Checked<'_>, text: &mut [u8])
    requires size { length text.old ≡ 4194304 }
    requires whole { checked.old.length ≡ 16777216 }
    ensures { checked.new.length ≡ checked.old.length }
{
    open_two(checked, &mut text[0..2097152]);
    open_two(checked, &mut text[2097152..4194304]);
}

/// Opens eight pieces of 1 MiB.
fn open_eight(checked: &mut Checked<'_>, text: &mut [u8])
    requires size { length text.old ≡ 8388608 }
    requires whole { checked.old.length ≡ 16777216 }
    ensures { checked.new.length ≡ checked.old.length }
{
    open_four(checked, &mut text[0..4194304]);
    open_four(checked, &mut text[4194304..8388608]);
}

/// Checks a ciphertext of 16 MiB in sixteen pieces.
fn check_in_pieces<'k>(key: &'k AesKey, text: &[u8], tag: [u8; 16]) -> Option<Checked<'k>>
    requires { length text.now ≡ 16777216 }
    ensures { IfSome result (λ checked. checked.length ≡ 16777216) }
{
    let mut checking = Checking::new(key, b"", NONCE, 16_777_216);
    check_eight(&mut checking, &text[0..8388608]);
    check_eight(&mut checking, &text[8388608..16777216]);
    if checking.left() != 0 {
        return None;
    }
    match checking.finish(&Place::loose(), 0, tag) {
        Ok(checked) => Some(checked),
        Err(_refusal) => None,
    }
}

/// Checks and opens a ciphertext of 16 MiB in sixteen pieces. Returns whether all of it was opened.
fn open_in_pieces(key: &AesKey, text: &mut [u8], tag: [u8; 16]) -> bool
    requires { length text.old ≡ 16777216 }
{
    let Some(mut checked) = check_in_pieces(key, text, tag) else {
        return false;
    };
    open_eight(&mut checked, &mut text[0..8388608]);
    open_eight(&mut checked, &mut text[8388608..16777216]);
    checked.opened() == 16_777_216
}

/// The time of sealing 16 MiB and opening them again in pieces, in nanoseconds.
fn pieces_time(rt: &HostRuntime, key: &AesKey, text: &mut [u8]) -> Result<u128> {
    if text.len() != 16_777_216 {
        return Err(anyhow!("no 16 MiB"));
    }
    let start = rt.thread_cpu_time()?;
    let tag = seal_in_place(key, &NONCE, b"", text);
    let opened = open_in_pieces(key, text, tag);
    let end = rt.thread_cpu_time()?;
    if !opened {
        return Err(anyhow!("not all was opened"));
    }
    Ok(end.saturating_sub(start).as_nanos())
}

fn time_pieces(rt: &HostRuntime, key: &AesKey, text: &mut [u8]) -> Result<()> {
    let mut sealing = u128::MAX;
    let mut whole = u128::MAX;
    let mut pieces = u128::MAX;
    for _ in 0..9 {
        sealing = sealing.min(seal_time(rt, key, text, 1)?);
        whole = whole.min(both_time(rt, key, text, 1)?);
        pieces = pieces.min(pieces_time(rt, key, text)?);
    }
    println!(rt; "pieces {} {}", whole.saturating_sub(sealing), pieces.saturating_sub(sealing))?;
    Ok(())
}

fn write_module(rt: &HostRuntime, key: &AesKey, text: &mut [u8]) -> Result<()> {
    if text.len() > 16_777_216 {
        return Ok(());
    }
    let tag = seal_in_place(key, &NONCE, b"", text);
    let counted = text.len() as u32 + 28;
    let mut all = vec![in rt.alloc()]?;
    all.extend_from_slice(&counted.to_le_bytes())?;
    all.extend_from_slice(&NONCE)?;
    all.extend_from_slice(text)?;
    all.extend_from_slice(&tag)?;
    fs::write(rt, "module.bin", all.as_slice())?;
    Ok(())
}

fn measure(rt: &HostRuntime, key: &AesKey, size: usize, turns: u32) -> Result<()> {
    let mut text = text_of(rt, size)?;
    time_size(rt, key, text.as_mut_slice(), turns)
}

fn main(rt: HostRuntime) -> Result<()> {
    let key = AesKey::new(&[7; 16]).map_err(|_| anyhow!("no key"))?;
    measure(&rt, &key, 256, 40_000)?;
    measure(&rt, &key, 8192, 2048)?;
    measure(&rt, &key, 1 << 20, 16)?;
    measure(&rt, &key, 1 << 24, 1)?;
    let mut text = text_of(&rt, 1 << 24)?;
    time_pieces(&rt, &key, text.as_mut_slice())?;
    write_module(&rt, &key, text.as_mut_slice())
}
RT
(cd "$program" && rt run > "$work/ours.txt" 2> "$work/rt.log") || { tail -20 "$work/rt.log"; exit 1; }
[ -x "$top/crates/pme_cli/out/pme_cli" ] || (cd "$top/crates/pme_cli" && rt run -- module > /dev/null 2>&1) || true
cd "$program"
python3 - "$work/ours.txt" "$top/crates/pme_cli/out/pme_cli" <<'PY'
import os, re, subprocess, sys
environment = dict(os.environ, OPENSSL_ia32cap="~0x200000200000000")
def peer(size):
    return max(speed(size) for _ in range(3))
def speed(size):
    words = ["openssl", "speed", "-seconds", "1", "-evp", "aes-128-gcm", "-bytes", str(size)]
    last = subprocess.run(words, env=environment, capture_output=True, text=True).stdout.strip().split("\n")[-1]
    return float(re.search(r"([0-9.]+)k", last)[1]) / 1000
print(f"{'bytes':>9}  {'openssl':>8}  {'open':>8}  {'ratio':>5}  {'seal':>8}  {'ratio':>5}   (MB/s)")
for line in open(sys.argv[1]):
    if line.startswith("pieces"):
        whole, pieces = map(int, line.split()[1:])
        print(f"16 MiB opened in place: {whole / 1e6:.1f} ms; checked and opened in pieces of 1 MiB: {pieces / 1e6:.1f} ms, ratio {pieces / whole:.3f}")
        continue
    size, opening, sealing, turns = map(int, line.split())
    base, opens, seals = peer(size), size * turns * 1000 / opening, size * turns * 1000 / sealing
    print(f"{size:9}  {base:8.1f}  {opens:8.1f}  {opens / base:5.2f}  {seals:8.1f}  {seals / base:5.2f}")
budget = 2 * 16.777216 / peer(16777216)
took, memory = [], 0
for _ in range(5):
    words = [sys.argv[2], "module", "--key", "07" * 16, "--aad", "", "--file", "module.bin"]
    child = subprocess.Popen(words, stdout=subprocess.DEVNULL)
    _, status, usage = os.wait4(child.pid, 0)
    assert status == 0
    took.append(usage.ru_utime + usage.ru_stime)
    memory = max(memory, usage.ru_maxrss / 1024)
print(f"pme module on 16 MiB: {min(took):.3f} s, twice openssl's time is {budget:.3f} s; {memory:.0f} MiB of memory at most")
PY
