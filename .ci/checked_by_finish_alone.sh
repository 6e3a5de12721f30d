#!/usr/bin/env bash
# Shows that a `Checked` is made by `Checking::finish` alone: a program that opens a ciphertext after `finish` compiles, and
# one that builds the `Checked` itself is refused, since its fields are private. A must-fail edit can't show this, since an
# edit has to compile. It builds throw-away programs over a copy of the crates, unproved.
set -eu
. "$(dirname "$0")/../bench/throwaway.sh"
throw_away checked_alone 'pme_terms pme_base aes_block gcm_field gcm_seal crypto_module' 'crypto_module aes_block pme_base anyhow'

# Writes the program with this expression as the checked ciphertext, and compiles it.
compiled() {
    cat > "$program/src/main.rt" <<RT
// A ciphertext of no bytes, checked and opened.
#![tactic(auto)]

use aes_block::AesKey;
use anyhow::{Result, anyhow};
use crypto_module::{Checked, Checking};
use pme_base::Place;

fn main(rt: HostRuntime) -> Result<()> {
    let Ok(key) = AesKey::new(&[0; 16]) else {
        return Err(anyhow!("no key"));
    };
    let checking = Checking::new(&key, &[], [0; 12], 0);
    let checked: Result<Checked<'_>, _> = $1;
    let Ok(mut checked) = checked else {
        println!(rt; "another tag")?;
        return Ok(());
    };
    checked.open(&mut []);
    Ok(())
}
RT
    (cd "$program" && rt try) > "$work/log" 2>&1
}

# The expression must be refused by the compiler for this reason.
refused() {
    if compiled "$1"; then
        echo "compiled: $1"
        exit 1
    fi
    if ! grep -q "$2" "$work/log"; then
        echo "refused otherwise: $1"
        tail -n 20 "$work/log"
        exit 1
    fi
    echo "refused: $1"
}

compiled 'checking.finish(&Place::loose(), 0, [0; 16])' || { tail -n 20 "$work/log"; exit 1; }
refused 'Ok::<Checked<'"'"'_>, ()>(Checked { key: &key, nonce: [0; 12], length: 0, opened: 0 })' 'private'
