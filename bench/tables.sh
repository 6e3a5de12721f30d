#!/usr/bin/env bash
# Measures tables as this repository builds them: one generated from a seed, its text, and the table that is read back
# from this text. All times are processor time, the least of several runs counts, and a rate is the bytes of the text
# by that time. Memory is the most that the program held while it read, in times of the text's bytes. Beside each rate
# stands that of the kit's reader of records alone, over the same text. It builds a throw-away program over a copy of
# the crates.
set -eu
. "$(dirname "$0")/throwaway.sh"
throw_away tables_bench 'pme_base parquet_types hybrid_runs plain_pages table_text' 'table_text plain_pages parquet_types pme_base anyhow'
cat > "$program/src/main.rt" <<'RT'
// Times tables: generated, written as text, and read back.
#![tactic(auto)]

ghost use Rattle.std.specs.Prelude.{◌≡◌, ◌<◌, length, IfOk};
ghost use Rattle.std.specs.List.{AllByRecursion};
ghost use Rattle.plain_pages.specs.Columns.{rows_of};

use anyhow::{Result, anyhow};
use parquet_types::{ColumnSpec, FlatSchema};
use plain_pages::Table;
use pme_base::{Bytes, OutOfMemory};
use std::alloc::Global;
use std::fs;
use std::time::CpuClock;
use table_text::{CellTexts, Choice, cell_text, generate, header_text, row_text, table_from_csv};

fn schema_of(alloc: Global, table: &Table) -> Result<FlatSchema, OutOfMemory>
    ensures { IfOk result (λ schema. length schema ≡ length table.now) }
{
    let mut schema = FlatSchema::new(alloc);
    for column in 0..table.columns() {
        let spec = table.spec(column);
        let copy = ColumnSpec {
            name: Bytes::copy_of(alloc, spec.name.as_slice())?,
            kind: spec.kind,
            optional: spec.optional,
            text: spec.text,
        };
        schema.push(copy)?;
    }
    Ok(schema)
}

fn all_columns(alloc: Global, count: usize) -> Result<Choice, OutOfMemory>
    ensures number { IfOk result (λ chosen. length chosen ≡ count) }
    ensures inside { IfOk result (λ chosen. AllByRecursion (λ column. column < count) chosen) }
{
    let mut chosen = Choice::new(alloc);
    for column in 0..count {
        chosen.push(column)?;
    }
    Ok(chosen)
}

#[tactic(auto, using(crate::proofs::Cells::cell_fits))]
fn push_cell(table: &Table, column: usize, row: usize, into: &mut Bytes) -> Result<(), OutOfMemory>
    requires column { column < length table.now }
    requires row { row < rows_of table.now }
{
    cell_text(table.spec(column), table.cell(column, row), into)
}

fn row_cells(alloc: Global, table: &Table, row: usize) -> Result<CellTexts, OutOfMemory>
    requires { row < rows_of table.now }
    ensures { IfOk result (λ cells. length cells ≡ length table.now) }
{
    let mut cells = CellTexts::new(alloc);
    for column in 0..table.columns() {
        let mut cell = Bytes::new(alloc);
        push_cell(table, column, row, &mut cell)?;
        cells.push(cell)?;
    }
    Ok(cells)
}

fn text_of(alloc: Global, table: &Table) -> Result<Bytes, OutOfMemory> {
    let mut text = Bytes::new(alloc);
    if table.columns() == 0 {
        return Ok(text);
    }
    let schema = schema_of(alloc, table)?;
    let chosen = all_columns(alloc, table.columns())?;
    header_text(alloc, &schema, &chosen, &mut text)?;
    for row in 0..table.rows() {
        let cells = row_cells(alloc, table, row)?;
        row_text(alloc, &cells, &mut text)?;
    }
    Ok(text)
}

fn generate_and_write(rt: &HostRuntime) -> Result<()> {
    let alloc = rt.alloc();
    let start = rt.thread_cpu_time()?;
    let table = generate(alloc, 7, 1_000_000)?;
    let made = rt.thread_cpu_time()?;
    let text = text_of(alloc, &table)?;
    let written = rt.thread_cpu_time()?;
    fs::write(rt, "table.csv", text.as_slice())?;
    let making = made.saturating_sub(start).as_nanos();
    let writing = written.saturating_sub(made).as_nanos();
    println!(rt; "{making} {writing} {}", text.len())?;
    Ok(())
}

fn read(rt: &HostRuntime, text: &[u8]) -> Result<()> {
    if text.len() > 268_435_456 {
        return Err(anyhow!("too long"));
    }
    let start = rt.thread_cpu_time()?;
    let Ok(table) = table_from_csv(rt.alloc(), text) else {
        return Err(anyhow!("no table"));
    };
    let end = rt.thread_cpu_time()?;
    let took = end.saturating_sub(start).as_nanos();
    println!(rt; "{took} {} {} {}", text.len(), table.columns(), table.rows())?;
    let status = fs::read_to_string(rt, "/proc/self/status")?;
    println!(rt; "{}", status.as_str())?;
    Ok(())
}

fn main(rt: HostRuntime) -> Result<()> {
    match fs::read(&rt, "table.csv") {
        Ok(text) => read(&rt, text.as_slice()),
        Err(_) => generate_and_write(&rt),
    }
}
RT
echo 'pub mod Cells' > "$program/proofs/Lib.antt"
cat > "$program/proofs/Cells.antt" <<'ANTT'
use Rattle.std.proofs.Common.{◌≡◌, Option, Some, None, refl}
use Rattle.std.specs.Option.{option_map}
use Rattle.parquet_types.specs.declared.column.ColumnSpec.{ColumnSpec}
use Rattle.plain_pages.specs.Cells.{Cell}
use Rattle.plain_pages.specs.Columns.{Column, IsCellOf}

-- a cell of a table is one of its column's
pub cell_fits : (column : Option Column) (spec : ColumnSpec) (cell : Cell) → option_map (λ (c : Column). c.spec) column ≡ Some spec
    → ((c : Column) → column ≡ Some c → IsCellOf c.spec cell) → IsCellOf spec cell
cell_fits None spec cell e h = cc e
cell_fits (Some c) spec cell e h = let same : c.spec ≡ spec = cc e in rw (← same) (h c refl)
ANTT
invariant() {
    mkdir -p "$program/proofs/$1"
    cat > "$program/proofs/$1/Invariants.antt" <<ANTT
use Rattle.std.proofs.Common.{◌≡◌, ◌<◌, ℕ, length}
use Rattle.std.specs.List.{AllByRecursion}
use Rattle.tables_bench.proofs.$1.Given as goal

abbrev pub invariant-loop-column : goal.invariant-loop-column
invariant-loop-column l = $2
ANTT
}
invariant schema_of 'length l.schema ≡ l.column'
invariant row_cells 'length l.cells ≡ l.column'
invariant all_columns '(length l.chosen ≡ l.column) × AllByRecursion (λ (column : ℕ). column < l.fn.count) l.chosen'
# The kit's reader of records by itself: a program of its own, so that neither changes how the other is compiled.
records="$work/crates/records_bench"
mkdir -p "$records/src"
echo 'records_bench: csv anyhow' >> "$work/crates.txt"
cat > "$records/src/main.rt" <<'RT'
// Times the reading of a text's records.
#![tactic(auto)]

use anyhow::{Result, anyhow};
use csv::{ByteRecord, ReaderBuilder};
use std::fs;
use std::time::CpuClock;

fn main(rt: HostRuntime) -> Result<()> {
    let Ok(text) = fs::read(&rt, "table.csv") else {
        return Ok(());
    };
    let start = rt.thread_cpu_time()?;
    let mut reader = ReaderBuilder::new().has_headers(false).flexible(true).from_reader(rt.alloc(), text.as_slice());
    let mut record = ByteRecord::new(rt.alloc());
    let mut fields: u64 = 0;
    for _ in 0..u64::MAX {
        let Ok(found) = reader.read_byte_record(&mut record) else {
            return Err(anyhow!("no record"));
        };
        if !found {
            break;
        }
        fields = fields.wrapping_add(record.len() as u64);
    }
    let took = rt.thread_cpu_time()?.saturating_sub(start).as_nanos();
    println!(rt; "{took} {fields}")?;
    Ok(())
}
RT
(cd "$records" && rt run > /dev/null 2> "$work/rt.log") || { tail -n 40 "$work/rt.log"; exit 1; }
(cd "$program" && rt run > "$work/ours.txt" 2> "$work/rt.log") || { cat "$work/ours.txt" "$work/rt.log" | tail -n 40; exit 1; }
cd "$work"
python3 - "$program/out/tables_bench" "$records/out/records_bench" <<'PY'
import os, re, subprocess, sys
def run(program):
    first, _, status = subprocess.run([program], check=True, capture_output=True, text=True).stdout.partition("\n")
    held = re.search(r"VmHWM:\s+(\d+) kB", status)
    return [int(word) for word in first.split()], int(held[1]) * 1024 if held else 0
def times(program, generated, count):
    best, memory = None, 0
    for _ in range(count):
        if generated and os.path.exists("table.csv"):
            os.remove("table.csv")
        numbers, held = run(program)
        best = numbers if best is None else [min(pair) for pair in zip(best, numbers)]
        memory = max(memory, held)
    return best, memory
(making, writing, size), _ = times(sys.argv[1], True, 3)
print(f"a million rows: generated in {making / 1e9:.2f} s, written in {writing / 1e9:.2f} s as {size / 1e6:.1f} MB")
def reading(name):
    (took, size, columns, rows), memory = times(sys.argv[1], False, 9)
    (alone, fields), _ = times(sys.argv[2], False, 9)
    assert fields == columns * (rows + 1)
    print(f"read {name}: {size * 1000 / took:.0f} MB/s (records alone {size * 1000 / alone:.0f}), {memory / size:.1f} times its bytes of memory, {rows} rows of {columns} columns", flush=True)
# Generated rows first, and then what becomes of the rate where cells are short, long or in quotes, and where columns
# are very many.
reading("generated rows")
def text(name, header, row, count):
    with open("table.csv", "w", newline="") as out:
        out.write(header + "\n")
        for _ in range(100):
            out.write((row + "\n") * (count // 100))
    reading(name)
text("long texts", "a:text,b:bytes", "x" * 100 + "," + "ab" * 50, 200_000)
text("quoted texts", "a:text", '"' + 'say ""so"", ' * 8 + '"', 400_000)
text("numbers of one digit", "a:int64", "7", 10_000_000)
text("numbers of two digits", "a:int64", "77", 10_000_000)
text("numbers of five digits", "a:int64", "12345", 5_000_000)
text("one short text", "a:text", "x", 10_000_000)
text("one short text, lines with both ends", "a:text", "x\r", 10_000_000)
text("one short text under a quoted header", '"a:text"', "x", 10_000_000)
text("two short texts", "a:text,b:text", "x,y", 5_000_000)
text("short texts", "a:text,b:text,c:text,d:text", "a,b,c,d", 4_000_000)
text("truths and nulls", "a:bool,b:bool?", "true,\\N", 4_000_000)
text("two empty cells", "a:bytes,b:bytes", ",", 10_000_000)
text("two empty texts", "a:text,b:text", ",", 10_000_000)
text("three empty cells", "a:bytes,b:bytes,c:bytes", ",,", 10_000_000)
text("an empty text and a letter", "a:text,b:text", ",x", 10_000_000)
text("hex of one byte", "a:bytes", "ab", 10_000_000)
text("hex of one byte, by its size", "a:fixed(1)", "ab", 10_000_000)
text("floats", "a:float", "0000803f", 4_000_000)
text("three empty texts", "a:text,b:text,c:text", ",,", 10_000_000)
text("two empty texts under a quoted header", '"a:text",b:text', ",", 10_000_000)
text("empty texts in quotes", "a:text", '""', 10_000_000)
text("two letters in quotes", "a:text,b:text", '"x","y"', 4_000_000)
text("texts of 1 MB in quotes", "a:text", '"' + "x" * 1_000_000 + '"', 100)
many = 32_768
text("many columns of one digit", ",".join(f"{n}:int64" for n in range(many)), ",".join("7" * many), 300)
text("many columns of truths", ",".join(f"{n}:bool" for n in range(many)), ",".join(["true"] * many), 100)
text("a thousand columns of empty texts", ",".join(f"{n}:text" for n in range(1000)), "," * 999, 20_000)
def header(name, count):
    with open("table.csv", "w") as out:
        for n in range(count - 1):
            out.write(f"{n}:bool,")
        out.write("a:bool\n")
    reading(name)
header("a header of all columns that a file may have", many)
header("a header of a million columns", 1_000_000)
PY
