#!/usr/bin/env python3
"""Times the turns of the proved simplex method beside a C program that forms the same products over __int128 with overflow checks, in the same run.

The program is that of a game of one patrol over as many targets as there are rows, for the first target attacked: each column covers one target.
Builds a proved program over `sg_simplex` (its columns are a `Table` of `sg_simplex_tests`) and a C program that prices, forms, tests and divides in
the same order and writes only where all fits. Prints, for 20, 64 and 200 rows: the moves of a run, the microseconds of a turn in each (least of five
runs, of the processor), and the ratio. `rt` has to be there, and a C compiler (CC).
"""
import os
import tempfile

from rows import build, compiled, seconds

# rows, and how many runs are timed
SIZES = ((20, 2000), (64, 60), (200, 3))
CRATES = ["sg_num", "sg_frac", "sg_linear", "sg_rows", "sg_pool", "sg_lp", "sg_simplex", "sg_simplex_tests"]

MAIN = """//! Runs a program again and again.
#![tactic(auto)]

ghost use Rattle.std.specs.Prelude.{◌≡◌, IfOk, IfSome};

use sg_pool::Pool;
use sg_simplex::{Node, Turn};
use sg_simplex_tests::Table;
use std::alloc::{AllocError, Global};
use std::io;

/// The entry of a column in a row.
fn entry(column: usize, row: usize) -> i64 {
    if row == 0 || column == 0 {
        1
    } else if column == row {
        -1
    } else {
        0
    }
}

/// The columns, each of which covers one target.
fn table(alloc: Global) -> Result<Option<Table>, AllocError>
    ensures { IfOk result (λ table. IfSome table (λ t. t.height ≡ ROWS)) }
{
    let mut table = Table::new(alloc, ROWS);
    for column in 0..ROWS {
        let mut entries = Vec::new(alloc);
        for row in 0..ROWS {
            entries.push(entry(column, row))?;
        }
        let cost = if column == 0 { 2 + ROWS as i64 } else { 2 };
        match table.with(alloc, cost, entries.as_slice())? {
            Some(longer) => table = longer,
            None => return Ok(None),
        }
    }
    Ok(Some(table))
}

/// How many moves a node makes to a final state, else 0.
fn moves(node: &mut Node<Table>) -> u64
    ensures width { node.new.width ≡ node.old.width }
    ensures family { node.new.family ≡ node.old.family }
{
    for k in 0..1000000u64 {
        let turn = node.turn();
        if turn == Turn::Done {
            return k;
        }
        if turn != Turn::Moved {
            return 0;
        }
    }
    0
}

/// The moves of one run.
fn run(alloc: Global) -> Result<u64, AllocError> {
    let mut pool = Pool::new(alloc, ROWS, POOL)?;
    match table(alloc)? {
        Some(table) => {
            let mut node = Node::start(alloc, table, 1000000, 1000000, &mut pool)?;
            let made = moves(&mut node);
            node.close(&mut pool);
            Ok(made)
        }
        None => Ok(0),
    }
}

fn main(rt: HostRuntime) -> io::Result<()> {
    let mut all = 0u64;
    for _ in 0..RUNS {
        all = all.saturating_add(run(rt.alloc())?);
    }
    println!(rt; "{all}")
}
"""

INVARIANT = """use Rattle.std.proofs.Common.{◌≡◌}
use Rattle.timing.proofs.NAME.Given as goal

abbrev pub invariant-loop-COUNTER : goal.invariant-loop-COUNTER
invariant-loop-COUNTER l = FACT
"""

LOOP = """#include <stdio.h>
#include <stdlib.h>
#include <string.h>
typedef __int128 wide;
typedef unsigned __int128 size;
static long entries[ROWS][ROWS], costs[ROWS];
static wide rows[ROWS][ROWS], y[ROWS], q[ROWS], rho;
static size gcd(size a, size b) { while (b) { size r = a % b; a = b; b = r; } return a; }
static size magnitude(wide x) { return x < 0 ? -(size)x : (size)x; }
static wide times(wide a, wide b) { wide v; if (__builtin_mul_overflow(a, b, &v)) exit(3); return v; }
static wide sum(wide a, wide b) { wide v; if (__builtin_add_overflow(a, b, &v)) exit(3); return v; }
static wide less(wide a, wide b) { wide v; if (__builtin_sub_overflow(a, b, &v)) exit(3); return v; }
static wide dot(const wide *x, const long *a) { wide s = 0; for (int j = 0; j < ROWS; j++) s = sum(s, times(x[j], a[j])); return s; }
static void lower(wide *x, wide *last) {
    size d = 0;
    for (int j = 0; j < ROWS && d != 1; j++) d = gcd(d, magnitude(x[j]));
    if (last) d = gcd(d, magnitude(*last));
    if (d > 1) {
        for (int j = 0; j < ROWS; j++) x[j] = x[j] < 0 ? -(wide)(magnitude(x[j]) / d) : (wide)(magnitude(x[j]) / d);
        if (last) *last /= (wide)d;
    }
}
/* how a/p stands to b/s: by whole parts, then by quotients of the rests */
static int order(wide a, wide p, wide b, wide s) {
    wide u = a / p, v = b / s, e, f;
    e = a % p; if (e < 0) { e += p; u--; }
    f = b % s; if (f < 0) { f += s; v--; }
    if (u != v) return u < v ? -1 : 1;
    size m = e, n = p, o = f, t = s;
    for (;;) {
        size g = m / n, h = o / t;
        if (g != h) return g < h ? -1 : 1;
        size i = m % n, k = o % t;
        if (i == 0 || k == 0) return i < k ? -1 : i > k;
        m = t; o = n; n = k; t = i;
    }
}
static int turn(void) {
    long slack[ROWS];
    const long *a = 0;
    long c = 0;
    for (int i = 0; i < ROWS && !a; i++) if (y[i] < 0) { memset(slack, 0, sizeof slack); slack[i] = 1; a = slack; }
    for (int k = 0; k < ROWS && !a; k++) if (times(rho, costs[k]) > dot(y, entries[k])) { a = entries[k]; c = costs[k]; }
    if (!a) return 0;
    for (int k = 0; k < ROWS; k++) q[k] = dot(rows[k], a);
    int r = -1;
    for (int k = 0; k < ROWS; k++) {
        if (q[k] <= 0) continue;
        int o = r < 0 ? -1 : 0;
        for (int j = 0; j < ROWS && r >= 0 && o == 0; j++) o = order(rows[k][j], q[k], rows[r][j], q[r]);
        if (o < 0) r = k;
    }
    for (int k = 0; k < ROWS; k++) if (k != r) for (int j = 0; j < ROWS; j++) less(times(rows[k][j], q[r]), times(q[k], rows[r][j]));
    wide d = less(dot(y, a), times(rho, c));
    for (int j = 0; j < ROWS; j++) less(times(y[j], q[r]), times(d, rows[r][j]));
    times(rho, q[r]);
    for (int k = 0; k < ROWS; k++) if (k != r) {
        for (int j = 0; j < ROWS; j++) rows[k][j] = rows[k][j] * q[r] - q[k] * rows[r][j];
        lower(rows[k], 0);
    }
    for (int j = 0; j < ROWS; j++) y[j] = y[j] * q[r] - d * rows[r][j];
    rho *= q[r];
    lower(y, &rho);
    return 1;
}
int main(void) {
    for (int k = 0; k < ROWS; k++) {
        costs[k] = k == 0 ? 2 + ROWS : 2;
        for (int j = 0; j < ROWS; j++) entries[k][j] = j == 0 || k == 0 ? 1 : k == j ? -1 : 0;
    }
    long all = 0;
    for (int n = 0; n < RUNS; n++) {
        memset(rows, 0, sizeof rows);
        memset(y, 0, sizeof y);
        for (int i = 0; i < ROWS; i++) rows[i][i] = 1;
        rho = 1;
        while (turn()) all++;
    }
    printf("%ld\\n", all);
    return 0;
}
"""


def filled(text, rows, runs):
    return text.replace("ROWS", str(rows)).replace("POOL", str(rows + 1)).replace("RUNS", str(runs))


def proofs_of(rows):
    """What the loops of the proved program keep, by function."""
    kept = {
        "table": ("column", f"l.table.height ≡ {rows}"),
        "moves": ("k", "(l.node.width ≡ l.initial.node.width) × (l.node.family ≡ l.initial.node.family)"),
    }
    return {
        f"{name}/Invariants.antt": INVARIANT.replace("NAME", name).replace("COUNTER", counter).replace("FACT", fact)
        for name, (counter, fact) in kept.items()
    }


def main():
    for rows, runs in SIZES:
        with tempfile.TemporaryDirectory() as folder:
            plain_path = compiled(folder, "loop", filled(LOOP, rows, runs))
            made = os.popen(plain_path).read().strip()
            plain = seconds([plain_path], made)
            proved = seconds([build(folder, "timing", CRATES, filled(MAIN, rows, runs), proofs_of(rows))], made)
        turns = int(made) + runs
        print(
            f"{rows} rows, {int(made) // runs} moves: a turn takes {proved / turns * 1e6:.1f} us proved, "
            f"{plain / turns * 1e6:.1f} us in C, ratio {proved / plain:.2f}"
        )


if __name__ == "__main__":
    main()
