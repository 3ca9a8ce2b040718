#!/usr/bin/env python3
"""Times decoding and coding every code-block once, in the fast form of the coding passes and in the plain one, against Debian's OpenJPEG tools
(libopenjp2-tools), side by side on one thread.

usage: bench/passes.py [PICTURE.ppm]

Without a picture one of 2,048 by 1,536 is made (smooth shades with noise, RGB, 8 bits). It is coded without loss. A copy of the repository's
crates is made in a temporary folder, with a program that reads a codestream, gathers its code-blocks, and decodes each, or
decodes and codes each; the program is proved and built (`rt run`), which takes some minutes where the crates below it aren't kept. Then, in
turn and five times each, `opj_decompress`, `opj_compress` and the program are run. Prints medians of processor seconds; those of the program
are without the reading, which is timed by itself. Only Python's standard library is needed, and `rt`.
"""

import os
import statistics
import subprocess
import sys
import tempfile

sys.path.insert(0, os.path.dirname(os.path.abspath(__file__)))
from aside import copy
from recode import timed
from regroup import RUNS, made_picture

PROGRAM = r'''//! Decodes and codes every code-block of a codestream.
#![tactic(auto)]

use jx_base::{Block, NoMemory};
use jx_tier2_reader::gather;
use jx_CRATE::{decode_FORM, encode_FORM};
use jx_tier1_specs::{Coded, Segments};
use jx_codestream::read_stream;
use std::alloc::Global;
use std::env;
use std::fs;

/// How many bytes a block's passes have when they are coded anew, or 0 where they are only decoded.
fn one(alloc: Global, block: &Block<'_>, again: bool) -> Result<usize, NoMemory> {
    let wide = block.rect.x.len();
    let high = block.rect.y.len();
    if wide > 1024 || high > 1024 || block.zero >= block.planes || block.planes > 74 {
        return Ok(0);
    }
    let planes = block.planes - block.zero;
    if block.passes > 3 * u16::from(planes) - 2 {
        return Ok(0);
    }
    let mut whole = Vec::new(alloc);
    for piece in block.pieces.as_slice() {
        whole.extend_from_slice(piece.bytes)?;
    }
    if whole.len() > 0x1000_0000 {
        return Ok(0);
    }
    let mut segments = Segments::new(alloc);
    segments.push(&whole)?;
    let coded = Coded {
        band: block.name.band,
        style: block.style,
        planes,
        passes: block.passes,
        segments,
    };
    let decoded = decode_FORM(alloc, wide as u16, high as u16, &coded)?;
    if !again || decoded.grid.width() > 1024 || decoded.grid.height() > 1024 {
        return Ok(0);
    }
    let made = encode_FORM(alloc, &decoded.grid, coded.band, coded.style, planes, block.passes)?;
    let mut count = 0usize;
    for segment in made.as_slice() {
        count = count.saturating_add(segment.len());
    }
    Ok(count)
}

fn main(rt: HostRuntime) -> anyhow::Result<()> {
    let alloc = rt.alloc();
    let words = env::args(&rt)?.collect::<Vec<String>>(alloc)?;
    if words.len() < 3 {
        return Ok(());
    }
    let bytes = fs::read(&rt, words[1].as_str())?;
    if bytes.len() > 0x1000_0000 {
        return Ok(());
    }
    let stream = read_stream(alloc, &bytes)?;
    let blocks = gather(alloc, &bytes, &stream)?;
    let mut count = 0usize;
    if words[2].as_str() != "read" {
        for block in blocks.as_slice() {
            if let Ok(more) = one(alloc, block, words[2].as_str() == "both") {
                count = count.saturating_add(more);
            }
        }
    }
    println!(rt; "{} blocks, {} bytes", blocks.len(), count)?;
    Ok(())
}
'''

FORMS = {
    "fast": {"CRATE": "tier1", "FORM": "flags"},
    "plain": {"CRATE": "tier1_plain", "FORM": "passes"},
}


def built(folder, form):
    """The path of the program over one form of the coding passes, proved and built in the folder."""
    text = PROGRAM
    for word, value in FORMS[form].items():
        text = text.replace(word, value)
    crate = copy(os.path.join(folder, form), "passes", ["jx_" + FORMS[form]["CRATE"], "jx_tier2_reader"], {"src/main.rt": text})
    run = subprocess.run(["rt", "run", "--", "none"], cwd=crate, capture_output=True, text=True)
    for where, _, files in os.walk(os.path.join(crate, "out")):
        for name in files:
            path = os.path.join(where, name)
            if name == "passes" and os.access(path, os.X_OK):
                return path
    sys.exit(run.stdout + run.stderr)


def main(words):
    with tempfile.TemporaryDirectory() as folder:
        picture = words[0] if words else os.path.join(folder, "in.ppm")
        if not words:
            made_picture(picture)
        coded = os.path.join(folder, "in.j2k")
        subprocess.run(["opj_compress", "-i", picture, "-o", coded], stdout=subprocess.DEVNULL, check=True)
        runs = {
            "opj_decompress": ["opj_decompress", "-threads", "1", "-i", coded, "-o", os.path.join(folder, "back.ppm")],
            "opj_compress": ["opj_compress", "-threads", "1", "-i", picture, "-o", os.path.join(folder, "again.j2k")],
        }
        for form in FORMS:
            program = built(folder, form)
            print(subprocess.run([program, coded, "both"], capture_output=True, text=True, check=True).stdout, end="")
            for mode in ("read", "decode", "both"):
                runs[f"{form} {mode}"] = [program, coded, mode]
        found = {name: [] for name in runs}
        for _ in range(RUNS):
            for name, command in runs.items():
                found[name].append(timed(command)[1])
        median = {name: statistics.median(times) for name, times in found.items()}
        tools = median["opj_decompress"] + median["opj_compress"]
        print(f"the file has {os.path.getsize(coded)} bytes; processor seconds; of both tools")
        for name in ("opj_decompress", "opj_compress"):
            print(f"{name}: {median[name]:.3f}; {median[name] / tools:.3f}")
        for form in FORMS:
            read, decode, both = (median[f"{form} {mode}"] for mode in ("read", "decode", "both"))
            for name, time in (("decoding", decode - read), ("coding", both - decode), ("both", both - read)):
                print(f"{form}, {name}: {time:.3f}; {time / tools:.3f}")


main(sys.argv[1:])
