#!/usr/bin/env python3
"""Times the proved combination of two rows beside a C loop over __int128 with __builtin_mul_overflow, in the same run.

Builds, in a folder of its own, a small proved program that calls `sg_rows::combine` on rows of 1,536 places, and a C program that combines the same
rows place by place and stops at the first overflow. Each does so many rounds, by turns with 1 and -1 as the second factor, so that the numbers stay
as large as they are. Prints the seconds of each (least of five runs, of the processor), and the ratio. `rt` has to be there, and a C compiler (CC).
"""
import os
import resource
import shutil
import subprocess
import sys
import tempfile

TOP = os.path.dirname(os.path.dirname(os.path.abspath(__file__)))
PLACES = 1536
ROUNDS = 20000
RUNS = 5

MAIN = f"""//! Combines two rows many times.
#![tactic(auto)]

ghost use Rattle.std.specs.Prelude.{{◌≡◌, length}};

use sg_rows::combine;
use std::io;

/// How many of so many combinations fit.
fn combinations(row: &mut [i128], other: &[i128], rounds: u64) -> u64
    requires {{ length row.old ≡ length other.now }}
{{
    let mut fit = 0u64;
    for k in 0..rounds {{
        let factor = if k % 2 == 0 {{ 1 }} else {{ -1 }};
        match combine(row, 1, factor, other) {{
            Ok(()) => fit = fit.saturating_add(1),
            Err(_) => {{}}
        }}
    }}
    fit
}}

fn main(rt: HostRuntime) -> io::Result<()> {{
    let mut row = [1237940039285380274899124224i128; {PLACES}];
    let other = [618970019642690137449562111i128; {PLACES}];
    let fit = combinations(row.as_mut_slice(), other.as_slice(), {ROUNDS});
    println!(rt; "{{fit}}")
}}
"""

LOOP = f"""#include <stdio.h>
typedef __int128 wide;
static wide row[{PLACES}], other[{PLACES}];
static int combine(wide *row, wide p, wide q, const wide *other, int n) {{
    for (int j = 0; j < n; j++) {{
        wide left, right, value;
        if (__builtin_mul_overflow(row[j], p, &left)) return 0;
        if (__builtin_mul_overflow(q, other[j], &right)) return 0;
        if (__builtin_sub_overflow(left, right, &value)) return 0;
        row[j] = value;
    }}
    return 1;
}}
int main(void) {{
    for (int j = 0; j < {PLACES}; j++) {{
        row[j] = (wide)1 << 90;
        other[j] = ((wide)1 << 89) - 1;
    }}
    long fit = 0;
    for (long k = 0; k < {ROUNDS}; k++) fit += combine(row, 1, k % 2 == 0 ? 1 : -1, other, {PLACES});
    printf("%ld\\n", fit);
    return 0;
}}
"""


def seconds(command, want):
    """The least of the processor's seconds that a program takes, which has to print what is wanted."""
    least = None
    for _ in range(RUNS):
        before = resource.getrusage(resource.RUSAGE_CHILDREN)
        printed = subprocess.run(command, capture_output=True, text=True, check=True).stdout.strip()
        after = resource.getrusage(resource.RUSAGE_CHILDREN)
        if printed != want:
            sys.exit(f"{command}: printed {printed!r} in place of {want!r}")
        spent = after.ru_utime - before.ru_utime
        least = spent if least is None else min(least, spent)
    return least


def build(folder, name, crates, main, proofs=None):
    """The path of a proved program over crates of this repository, with files of proofs by their path."""
    for crate in crates:
        shutil.copytree(os.path.join(TOP, "crates", crate), os.path.join(folder, "crates", crate), ignore=shutil.ignore_patterns("out"))
    os.makedirs(os.path.join(folder, "crates", name, "src"))
    with open(os.path.join(folder, "crates", name, "src", "main.rt"), "w") as file:
        file.write(main)
    for path, text in (proofs or {}).items():
        whole = os.path.join(folder, "crates", name, "proofs", path)
        os.makedirs(os.path.dirname(whole), exist_ok=True)
        with open(whole, "w") as file:
            file.write(text)
    with open(os.path.join(TOP, "crates.txt")) as file:
        lines = [line for line in file if line.split(":")[0] in crates]
    with open(os.path.join(folder, "crates.txt"), "w") as file:
        file.writelines(lines)
        file.write(f"{name}: {' '.join(crates)}\n")
    built = subprocess.run(["rt", "run"], cwd=os.path.join(folder, "crates", name), capture_output=True, text=True)
    path = os.path.join(folder, "crates", name, "out", name)
    if built.returncode != 0 or not os.path.exists(path):
        sys.exit(built.stdout + built.stderr)
    return path


def compiled(folder, name, text):
    """The path of a C program."""
    with open(os.path.join(folder, name + ".c"), "w") as file:
        file.write(text)
    path = os.path.join(folder, name)
    subprocess.run([os.environ.get("CC", "cc"), "-O2", "-o", path, path + ".c"], check=True)
    return path


def main():
    with tempfile.TemporaryDirectory() as folder:
        proved = seconds([build(folder, "timing", ["sg_num", "sg_rows"], MAIN)], str(ROUNDS))
        plain = seconds([compiled(folder, "loop", LOOP)], str(ROUNDS))
    print(f"combine, {PLACES} places, {ROUNDS} rounds: proved {proved:.3f} s, C {plain:.3f} s, ratio {proved / plain:.2f}")


if __name__ == "__main__":
    main()
