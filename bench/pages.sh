#!/usr/bin/env bash
# Measures page bodies as this repository builds them: a page written from a table, and its index made and every cell
# read through a view. All times are processor time, the least of several runs counts, and a rate is the bytes of the
# page by that time. It builds a throw-away program over a copy of the crates.
set -eu
. "$(dirname "$0")/throwaway.sh"
throw_away pages_bench 'pme_base parquet_types hybrid_runs plain_pages' 'plain_pages parquet_types pme_base anyhow'
cat > "$program/src/main.rt" <<'RT'
// Times pages: written from a table, indexed, and read cell by cell.
#![tactic(auto)]

ghost use Rattle.std.specs.Prelude.{◌≡◌, ◌≤◌, ◌<◌, length, true};
ghost use Rattle.parquet_types.specs.declared.column.ColumnKind.TheVariants as kind_of;
ghost use Rattle.plain_pages.specs.Columns.{rows_of};

use anyhow::{Result, anyhow};
use parquet_types::{ColumnKind, ColumnSpec, DataHead};
use plain_pages::{CellRef, Dictionary, PageIndex, PageView, Table, TableColumn, write_page};
use pme_base::{Bytes, Place};
use std::time::CpuClock;

const ROWS: u32 = 1_000_000;
const TEXT: &[u8] = b"city-123";

fn spec_of(rt: &HostRuntime, kind: ColumnKind, optional: bool) -> ColumnSpec
    ensures kind { result.kind ≡ kind }
    ensures optional { result.optional ≡ optional }
{
    ColumnSpec {
        name: Bytes::new(rt.alloc()),
        kind,
        optional,
        text: false,
    }
}

fn push_numbers(column: &mut TableColumn) -> Result<()>
    requires { column.old.spec.kind ≡ kind_of.Int64 }
{
    for i in 0..ROWS {
        column.push(CellRef::Int64(i64::from(i) << 20))?;
    }
    Ok(())
}

fn push_some_numbers(column: &mut TableColumn) -> Result<()>
    requires kind { column.old.spec.kind ≡ kind_of.Int64 }
    requires optional { column.old.spec.optional ≡ true }
{
    for i in 0..ROWS {
        column.push(some_number(i))?;
    }
    Ok(())
}

fn some_number(i: u32) -> CellRef<'static>
    ensures { IsNumber result }
{
    if i % 16 == 0 {
        CellRef::Null
    } else {
        CellRef::Int64(i64::from(i))
    }
}

fn push_texts(column: &mut TableColumn) -> Result<()>
    requires { column.old.spec.kind ≡ kind_of.ByteArray }
{
    for i in 0..ROWS {
        column.push(CellRef::Bytes(text_of(i)))?;
    }
    Ok(())
}

fn text_of(i: u32) -> &'static [u8]
    ensures { length result.now ≤ 8 }
{
    &TEXT[..(i % 9) as usize]
}

/// The least time of five runs of writing ten pages, in nanoseconds, and the bytes of these pages.
fn write_time(rt: &HostRuntime, table: &Table) -> Result<(u128, usize)> {
    let mut least = u128::MAX;
    let mut size = 0;
    for _ in 0..5 {
        let mut into = Bytes::new(rt.alloc());
        let start = rt.thread_cpu_time()?;
        write_pages(table, &mut into)?;
        let end = rt.thread_cpu_time()?;
        least = least.min(end.saturating_sub(start).as_nanos());
        size = into.len();
    }
    Ok((least, size))
}

fn write_pages(table: &Table, into: &mut Bytes) -> Result<()> {
    if table.columns() == 0 {
        return Ok(());
    }
    let rows = table.rows() / 10;
    if rows > 16_777_216 {
        return Ok(());
    }
    for page in 0..10 {
        write_page(table, 0, page * rows, page * rows + rows, into)?;
    }
    Ok(())
}

fn fold(sum: u64, cell: CellRef<'_>) -> u64 {
    match cell {
        CellRef::Null => sum.wrapping_add(1),
        CellRef::Bool(value) => sum.wrapping_add(u64::from(value)),
        CellRef::Int32(value) => sum ^ u64::from(value.unsigned_abs()),
        CellRef::Int64(value) => sum ^ value.unsigned_abs(),
        CellRef::Bytes(bytes) => sum.wrapping_mul(3).wrapping_add(bytes.len() as u64),
    }
}

fn read_all(view: &PageView<'_>) -> u64 {
    let mut sum = 0;
    for i in 0..view.count() {
        sum = fold(sum, view.cell(i));
    }
    sum
}

/// The least time of five runs of making the index and reading all cells, in nanoseconds.
fn read_time(
    rt: &HostRuntime,
    spec: &ColumnSpec,
    encoding: i32,
    dictionary: Option<&Dictionary>,
    body: &[u8],
) -> Result<(u128, u64)> {
    let head = DataHead {
        uncompressed: 0,
        compressed: 0,
        num_values: 1_000_000,
        encoding,
        level_encoding: 3,
    };
    let mut least = u128::MAX;
    let mut sum = 0;
    for _ in 0..5 {
        let start = rt.thread_cpu_time()?;
        let index = match PageIndex::build(rt.alloc(), &Place::file(), spec, &head, dictionary, body) {
            Ok(index) => index,
            Err(_) => return Err(anyhow!("no index")),
        };
        sum = read_all(&PageView::new(body, &index, dictionary));
        let end = rt.thread_cpu_time()?;
        least = least.min(end.saturating_sub(start).as_nanos());
    }
    Ok((least, sum))
}

fn whole_page(rt: &HostRuntime, table: &Table) -> Result<Bytes> {
    let mut body = Bytes::new(rt.alloc());
    if table.columns() > 0 && table.rows() <= 16_777_216 {
        write_page(table, 0, 0, table.rows(), &mut body)?;
    }
    Ok(body)
}

fn measure(rt: &HostRuntime, name: &str, column: TableColumn, spec: &ColumnSpec) -> Result<()> {
    let mut table = Table::new(rt.alloc());
    table.add(column)?;
    let (writing, written) = write_time(rt, &table)?;
    println!(rt; "write {name} {writing} {written}")?;
    let body = whole_page(rt, &table)?;
    let (reading, sum) = read_time(rt, spec, 0, None, body.as_slice())?;
    println!(rt; "read {name} {reading} {} {sum}", body.len())?;
    Ok(())
}

fn measure_dictionary(rt: &HostRuntime) -> Result<()> {
    let spec = spec_of(rt, ColumnKind::Int64, false);
    let entries = Bytes::from_vec(vec![in rt.alloc(); 7; 128]?);
    let dictionary = match Dictionary::build(rt.alloc(), &Place::file(), &spec, 16, entries) {
        Ok(dictionary) => dictionary,
        Err(_) => return Err(anyhow!("no dictionary")),
    };
    let mut body = vec![in rt.alloc(); 0x9a; 500_004]?;
    body[0] = 4;
    body[1] = 0x91;
    body[2] = 0xa1;
    body[3] = 0x0f;
    let (reading, sum) = read_time(rt, &spec, 8, Some(&dictionary), body.as_slice())?;
    println!(rt; "read dictionary {reading} 8000000 {sum}")?;
    Ok(())
}

fn main(rt: HostRuntime) -> Result<()> {
    let spec = spec_of(&rt, ColumnKind::Int64, false);
    let mut column = TableColumn::new(rt.alloc(), spec_of(&rt, ColumnKind::Int64, false));
    push_numbers(&mut column)?;
    measure(&rt, "int64", column, &spec)?;
    let spec = spec_of(&rt, ColumnKind::Int64, true);
    let mut column = TableColumn::new(rt.alloc(), spec_of(&rt, ColumnKind::Int64, true));
    push_some_numbers(&mut column)?;
    measure(&rt, "int64?", column, &spec)?;
    let spec = spec_of(&rt, ColumnKind::ByteArray, false);
    let mut column = TableColumn::new(rt.alloc(), spec_of(&rt, ColumnKind::ByteArray, false));
    push_texts(&mut column)?;
    measure(&rt, "text", column, &spec)?;
    measure_dictionary(&rt)
}
RT
echo 'pub mod Numbers' > "$program/specs/Lib.antt"
cat > "$program/specs/Numbers.antt" <<'ANTT'
use Rattle.plain_pages.specs.declared.cell_ref.CellRef.{CellRef}
use Rattle.plain_pages.specs.declared.cell_ref.CellRef.TheVariants.{Null, Int64}
use Rattle.std.specs.Prelude.{FitsSigned}
use Rattle.std.specs.Int.{w64}

-- a number of 64 bits, or null
abbrev pub IsNumber : CellRef → Type 0
IsNumber Null = Unit {0}
IsNumber (Int64 n) = FitsSigned w64 n
IsNumber _ = ⊥
ANTT
sed -i '0,/^ghost use/s//ghost use Rattle.pages_bench.specs.Numbers.{IsNumber};\nghost use/' "$program/src/main.rt"
for function in push_numbers push_some_numbers push_texts; do
    mkdir -p "$program/proofs/$function"
    cat > "$program/proofs/$function/Invariants.antt" <<ANTT
use Rattle.std.proofs.Common.{◌≡◌}
use Rattle.pages_bench.proofs.$function.Given as goal

abbrev pub invariant-loop-i : goal.invariant-loop-i
invariant-loop-i l = l.column.spec ≡ l.fn.column.spec
ANTT
done
(cd "$program" && rt run > "$work/ours.txt" 2> "$work/rt.log") || { cat "$work/ours.txt" "$work/rt.log" | tail -n 40; exit 1; }
python3 - "$work/ours.txt" <<'PY'
import sys
for line in open(sys.argv[1]):
    what, name, time, size, *_ = line.split()
    print(f"{what:5} {name:10} {int(size) * 1000 / int(time):8.0f} MB/s  {int(time) / 1e6:7.2f} ns a cell")
PY
