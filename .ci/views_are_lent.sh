#!/usr/bin/env bash
# Shows that a view of a page can't outlive what it lends: the same program compiles as it stands, and is refused by
# the borrow checker where the body, the index or the dictionary is changed or moved while the view is still in use.
# A must-fail edit can't show this, since an edit has to compile. It builds throw-away programs over a copy of the
# crates, unproved.
set -eu
. "$(dirname "$0")/../bench/throwaway.sh"
throw_away lent_view 'pme_base parquet_types hybrid_runs plain_pages' 'plain_pages parquet_types pme_base anyhow'

# Writes the program with this statement between the making of the view and its use, and compiles it.
compiled() {
    cat > "$program/src/main.rt" <<RT
// A page's view, in use.
#![tactic(auto)]

use anyhow::{Result, anyhow};
use parquet_types::{ColumnKind, ColumnSpec, DataHead};
use plain_pages::{Dictionary, PageIndex, PageView};
use pme_base::{Bytes, Place};

fn main(rt: HostRuntime) -> Result<()> {
    let spec = ColumnSpec { name: Bytes::new(rt.alloc()), kind: ColumnKind::Int32, optional: false, text: false };
    let head = DataHead { uncompressed: 0, compressed: 0, num_values: 1, encoding: 8, level_encoding: 3 };
    let place = Place::file();
    let entries = Bytes::copy_of(rt.alloc(), &[7, 0, 0, 0])?;
    let dictionary = match Dictionary::build(rt.alloc(), &place, &spec, 1, entries) {
        Ok(dictionary) => dictionary,
        Err(_) => return Err(anyhow!("no dictionary")),
    };
    let mut body = Bytes::copy_of(rt.alloc(), &[0, 2])?;
    let index = match PageIndex::build(rt.alloc(), &place, &spec, &head, Some(&dictionary), body.as_slice()) {
        Ok(index) => index,
        Err(_) => return Err(anyhow!("no index")),
    };
    let view = PageView::new(body.as_slice(), &index, Some(&dictionary));
    $1
    println!(rt; "{}", view.count())?;
    body.push(0)?;
    Ok(())
}
RT
    (cd "$program" && rt try) > "$work/log" 2>&1
}

# The statement must be refused with this error, at the value that is lent.
refused() {
    if compiled "$1"; then
        echo "compiled: $1"
        exit 1
    fi
    if ! grep -q "error\[$2\].*\`$3\`" "$work/log"; then
        echo "refused otherwise: $1"
        tail -n 20 "$work/log"
        exit 1
    fi
    echo "refused: $1"
}

compiled '' || { tail -n 20 "$work/log"; exit 1; }
refused 'body.push(1)?;' borrow-e0502 body
refused 'let _moved = index;' borrow-e0505 index
refused 'let _moved = dictionary;' borrow-e0505 dictionary
