#!/usr/bin/env python3
"""Times claims and commits of empty work on the two stores, with 1, 2 and 4 threads and windows of 1 and 64.

usage: bench/stores.py [NUMBERS]

Makes a repository in a temporary folder, with copies of jx_base, jx_store, jx_store_plain and jx_ring and a program over both stores,
runs it by `rt try`, and prints microseconds for each number, the median of three runs. A thread claims a number, commits
that its job is short of memory, and goes on until all are claimed; then the tape is made. Only Python's standard library
is needed, and `rt`.
"""

import os
import shutil
import subprocess
import sys
import tempfile

PROGRAM = r'''//! Claims and commits of empty work on both stores.
use jx_base::NoMemory;
use jx_ring::RingStore;
use jx_store::{ClaimAnswer, Named, Work};
use jx_store_plain::{Blanks, LockStore};
use std::alloc::Global;
use std::marker::Brand;
use std::sync::Wait;
use std::sync::ledger::Blank;
use std::thread;
use std::thread::Threads;
use std::time::Instant;

#[derive(Drop)]
struct Empty {
    number: u32,
}

impl Work for Empty {
    type Job = u32;

    ghost job = { λ p. p.number };

    ghost bad = { λ j. false };

    ghost number = { λ p. p.number };

    fn number(&self) -> u32 {
        self.number
    }
}

type Ring = RingStore<Empty, Brand>;

type Lock = LockStore<Empty, Brand, Brand, Brand, Brand, Brand, Brand>;

fn on_ring<R: Threads + Wait + Sync>(rt: &R, alloc: Global, jobs: &[u32], sizes: &[u32], window: u32, workers: u32) -> Result<usize, NoMemory> {
    let (store, mut passes) = Ring::new(alloc, jobs, sizes, 0, window, 1, workers)?;
    thread::for_each_mut(rt, passes.as_mut_slice(), workers as usize, &|_, pass| {
        for _ in rt.forever() {
            match store.claim(rt, pass) {
                ClaimAnswer::Claim(claim) => {
                    let number = claim.number();
                    store.commit(rt, pass, claim, Named::Short(number));
                }
                ClaimAnswer::Full { next: _, drained: _ } => {}
                ClaimAnswer::AllClaimed => return,
            }
        }
    });
    Ok(store.into_tape(passes).len())
}

fn on_lock<R: Threads + Wait + Sync>(rt: &R, alloc: Global, jobs: &[u32], sizes: &[u32], window: u32, workers: u32) -> Result<usize, NoMemory> {
    let blanks = Blanks {
        claimed: Blank::new(workers as u64),
        full: Blank::new(workers as u64),
        all_claimed: Blank::new(workers as u64),
        committed: Blank::new(workers as u64),
        made: Blank::new(workers as u64),
    };
    let (store, mut passes) = Lock::new(alloc, jobs, sizes, 0, window, 1, workers, blanks)?;
    thread::for_each_mut(rt, passes.as_mut_slice(), workers as usize, &|_, pass| {
        for _ in rt.forever() {
            match store.claim(rt, pass) {
                ClaimAnswer::Claim(claim) => {
                    let number = claim.number();
                    store.commit(rt, pass, claim, Named::Short(number));
                }
                ClaimAnswer::Full { next: _, drained: _ } => thread::yield_now(),
                ClaimAnswer::AllClaimed => return,
            }
        }
    });
    Ok(store.into_tape(passes).len())
}

fn main(rt: HostRuntime) -> anyhow::Result<()> {
    let mut jobs = Vec::new(rt.alloc());
    let mut sizes = Vec::new(rt.alloc());
    for number in 0..NUMBERS_u32 {
        jobs.push(number)?;
        sizes.push(0)?;
    }
    for workers in [1_u32, 2, 4] {
        for window in [1_u32, 64] {
            for _ in 0..3 {
                let start = Instant::now(&rt)?;
                let one = on_ring(&rt, rt.alloc(), jobs.as_slice(), sizes.as_slice(), window, workers);
                let ring = start.elapsed(&rt)?;
                let start = Instant::now(&rt)?;
                let other = on_lock(&rt, rt.alloc(), jobs.as_slice(), sizes.as_slice(), window, workers);
                let lock = start.elapsed(&rt)?;
                println!(rt; "{} {} {} {} {} {}", workers, window, ring.as_micros(), lock.as_micros(), one.is_ok(), other.is_ok())?;
            }
        }
    }
    Ok(())
}
'''


def main():
    numbers = int(sys.argv[1]) if len(sys.argv) > 1 else 20000
    top = os.path.dirname(os.path.dirname(os.path.abspath(__file__)))
    with tempfile.TemporaryDirectory() as folder:
        os.makedirs(os.path.join(folder, "crates", "stores", "src"))
        for name in ("jx_base", "jx_store", "jx_store_plain", "jx_ring"):
            ignore = shutil.ignore_patterns("out")
            shutil.copytree(os.path.join(top, "crates", name), os.path.join(folder, "crates", name), ignore=ignore)
        shutil.copy(os.path.join(top, "HANDLES"), folder)
        with open(os.path.join(folder, "crates.txt"), "w") as f:
            f.write("jx_base:\njx_store: jx_base\njx_store_plain: jx_base jx_store\njx_ring: jx_base jx_store atomic_table\nstores: jx_base jx_store jx_store_plain jx_ring anyhow\n")
        with open(os.path.join(folder, "crates", "stores", "src", "main.rt"), "w") as f:
            f.write(PROGRAM.replace("NUMBERS_u32", f"{numbers}_u32").replace("//! Claims", "#![tactic(auto)]\n//! Claims", 0))
        run = subprocess.run(["rt", "try", "--seconds", "600"], cwd=os.path.join(folder, "crates", "stores"), capture_output=True, text=True)
    times = {}
    for line in run.stdout.splitlines():
        words = line.split()
        if len(words) == 6 and words[0].isdigit():
            times.setdefault((int(words[0]), int(words[1])), []).append((int(words[2]), int(words[3])))
    if not times:
        print(run.stdout + run.stderr)
        sys.exit(1)
    print(f"{numbers} numbers, microseconds for each")
    print("| Threads | Window | Ring | Lock |\n|---|---|---|---|")
    for (threads, window), pairs in sorted(times.items()):
        ring, lock = (sorted(p[i] for p in pairs)[len(pairs) // 2] / numbers for i in (0, 1))
        print(f"| {threads} | {window} | {ring:.2f} | {lock:.2f} |")


main()
