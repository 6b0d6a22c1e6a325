#!/usr/bin/env python3
"""Times the proved walk over partial plays beside a plain C walk of the same rule over __int128, in the same run.

The game has 30 targets and 6 resources of 20 schedules of 3 targets each. Three targets weigh much and stand in half of the schedules, so that bounds
count them several times and leave much to look at; no play is above the bar. Builds a proved program over `sg_walk`, and a C program that walks the
same way, with counts on the covered targets, and forms each bound by going over the schedules of the later resources. Both have to count the same
looks. Prints, for two weights of the three targets, the looks of a walk, the looks of a second in each (by the least time of five runs, of the
processor, the start of the process among it), and the ratio of the times. `rt` has to be there, and a C compiler (CC).
"""
import os
import tempfile

from pricing import below
from rows import TOP, build, compiled, seconds

# the weight of the three targets, a bar that no play passes, and how many walks are timed
CASES = ((1000, 3440, 1), (150, 902, 8))

MAIN = r"""//! Walks over the plays of a game again and again.
#![tactic(auto)]

ghost use Rattle.std.specs.Prelude.{◌≡◌, ◌<◌, length};

use sg_file::{GameError, read_game};
use sg_game::{Game, Kind};
use sg_walk::{PartialPlay, Walked, walk};
use std::alloc::{AllocError, Global};
use std::io;

/// The name of a target, in quotes, and a comma.
fn push_target(alloc: Global, text: &mut String, t: u16) -> Result<(), AllocError> {
    text.push_str(format!(in alloc; "\"t{t}\", ")?.as_str())
}

/// The schedules of a resource, and the resource.
fn push_resource(alloc: Global, text: &mut String, r: u16) -> Result<(), AllocError>
    requires { r < 6 }
{
    for s in 0..20u16 {
        let n = r * 20 + s;
        let a = (n * 7 + 3) % 27;
        let b = a + 1 + (n * 11) % 13;
        let c = b + 1 + (n * 5) % 12;
        text.push_str(format!(in alloc; "[[schedule]]\nname = \"s{n}\"\ntargets = [")?.as_str())?;
        push_target(alloc, text, a % 27 + 4)?;
        push_target(alloc, text, b % 27 + 4)?;
        push_target(alloc, text, if s % 2 == 0 { s / 2 % 3 + 1 } else { c % 27 + 4 })?;
        text.push_str("]\n")?;
    }
    Ok(())
}

/// The text of the game.
fn text(alloc: Global) -> Result<String, AllocError> {
    let mut text = String::from_str(alloc, "version = 1\nform = \"security\"\ntargets = [")?;
    for t in 1..31u16 {
        push_target(alloc, &mut text, t)?;
    }
    text.push_str("]\n")?;
    for r in 0..6u16 {
        push_resource(alloc, &mut text, r)?;
    }
    for r in 0..6u16 {
        text.push_str(format!(in alloc; "[[resource]]\nname = \"r{r}\"\nschedules = [")?.as_str())?;
        for s in 0..20u16 {
            let n = r * 20 + s;
            text.push_str(format!(in alloc; "\"s{n}\", ")?.as_str())?;
        }
        text.push_str("]\n")?;
    }
    text.push_str("[[type]]\nname = \"thief\"\nprior = 1\npayoffs = [")?;
    for _ in 0..30u16 {
        text.push_str("[0, -1, 0, 1], ")?;
    }
    text.push_str("]\n")?;
    Ok(text)
}

/// The game; nothing where its text is refused.
fn game(alloc: Global) -> Result<Option<Game>, AllocError> {
    let text = text(alloc)?;
    match read_game(alloc, text.as_bytes()) {
        Ok(game) => Ok(Some(game)),
        Err(GameError::Refused(_)) => Ok(None),
        Err(GameError::Memory) => Err(AllocError),
    }
}

/// The weights of the targets.
fn weights(alloc: Global) -> Result<Vec<i128>, AllocError> {
    let mut weights = Vec::new(alloc);
    for t in 1..31u16 {
        weights.push(if t < 4 { HEAVY } else { i128::from(t * 37 % 40) })?;
    }
    Ok(weights)
}

/// The looks of a walk that finds nothing, and else 0.
fn looks_of(game: &Game, weights: &[i128]) -> u64 {
    if game.kind() != Kind::Security || game.resources() > 32 || weights.len() != game.targets() as usize {
        return 0;
    }
    let mut stack = PartialPlay::new();
    match walk(game, weights, BAR, 1000000000, &mut stack) {
        Walked::Clean { looks } => looks,
        _ => 0,
    }
}

/// The looks of all walks together.
fn all_looks(game: &Game, weights: &[i128]) -> u64 {
    let mut all = 0u64;
    for _ in 0..WALKS {
        all = all.saturating_add(looks_of(game, weights));
    }
    all
}

/// All that is timed.
fn run(alloc: Global) -> Result<u64, AllocError> {
    let weights = weights(alloc)?;
    match game(alloc)? {
        Some(game) => Ok(all_looks(&game, weights.as_slice())),
        None => Ok(0),
    }
}

fn main(rt: HostRuntime) -> io::Result<()> {
    let all = run(rt.alloc())?;
    println!(rt; "{all}")
}
"""

PLAIN = r"""#include <stdio.h>
typedef __int128 wide;
enum { RESOURCES = 6, SCHEDULES = 20, TARGETS = 30, SIZE = 3 };
static unsigned short schedules[RESOURCES][SCHEDULES][SIZE];
static wide weights[TARGETS + 1];
static unsigned char times[TARGETS + 1];
static unsigned short play[RESOURCES];
static unsigned long looks, budget = 1000000000;
static wide mu = BAR;

static wide rest(int k) {
    wide sum = 0;
    for (int r = k; r < RESOURCES; r++) {
        wide most = 0;
        for (int s = 0; s < SCHEDULES; s++) {
            wide weight = 0;
            for (int i = 0; i < SIZE; i++) {
                int t = schedules[r][s][i];
                if (!times[t] && weights[t] > 0) weight += weights[t];
            }
            if (weight > most) most = weight;
        }
        sum += most;
    }
    return sum;
}

/* 0: no play from here on, 1: the play, 2: the budget is spent */
static int visit(int k, wide covered) {
    if (looks == budget) return 2;
    looks++;
    if (k == RESOURCES) return covered > mu;
    if (covered + rest(k) <= mu) return 0;
    for (int c = 0; c <= SCHEDULES; c++) {
        wide sum = covered;
        play[k] = c;
        if (c) for (int i = 0; i < SIZE; i++) {
            int t = schedules[k][c - 1][i];
            if (!times[t]++) sum += weights[t];
        }
        int answer = visit(k + 1, sum);
        if (answer) return answer;
        if (c) for (int i = 0; i < SIZE; i++) times[schedules[k][c - 1][i]]--;
    }
    return 0;
}

int main(void) {
    for (int r = 0; r < RESOURCES; r++) for (int s = 0; s < SCHEDULES; s++) {
        int n = r * 20 + s, a = (n * 7 + 3) % 27, b = a + 1 + n * 11 % 13, c = b + 1 + n * 5 % 12;
        schedules[r][s][0] = a % 27 + 4;
        schedules[r][s][1] = b % 27 + 4;
        schedules[r][s][2] = s % 2 == 0 ? s / 2 % 3 + 1 : c % 27 + 4;
    }
    for (int t = 1; t <= TARGETS; t++) weights[t] = t < 4 ? HEAVY : t * 37 % 40;
    unsigned long all = 0;
    for (int n = 0; n < WALKS; n++) {
        looks = 0;
        if (visit(0, 0)) return 1;
        all += looks;
    }
    printf("%lu\n", all);
    return 0;
}
"""


def filled(text, heavy, bar, walks):
    return text.replace("HEAVY", str(heavy)).replace("BAR", str(bar)).replace("WALKS", str(walks))


def main():
    with open(os.path.join(TOP, "crates.txt")) as file:
        lines = dict(line.strip().split(":", 1) for line in file if ":" in line and not line.startswith("#"))
    crates = below("sg_walk", lines)
    crates += [name for name in below("sg_file", lines) if name not in crates]
    for heavy, bar, walks in CASES:
        with tempfile.TemporaryDirectory() as folder:
            plain_path = compiled(folder, "loop", filled(PLAIN, heavy, bar, walks))
            made = os.popen(plain_path).read().strip()
            plain = seconds([plain_path], made)
            proved = seconds([build(folder, "timing", crates, filled(MAIN, heavy, bar, walks))], made)
        looks = int(made)
        print(
            f"weight {heavy}, bar {bar}: {looks // walks} looks; in a second {looks / proved / 1e6:.1f} million proved, "
            f"{looks / plain / 1e6:.1f} million in C; ratio of the times {proved / plain:.2f}"
        )


if __name__ == "__main__":
    main()
