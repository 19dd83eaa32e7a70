#!/usr/bin/env python3
"""Measures the copies of bits of `amr_bits`: nanoseconds a call for 244 bits, at each bit place, the best of five runs.

    bench/bits.py [CALLS]      ten million calls a run by default, each of 31 octets

A program of its own is made in a temporary folder, over a copy of `amr_bits`, and proved and built there as any other. At
place 0 the octets stand alike in both; `put_bits` writes at that place, the others read there.
"""
import os
import shutil
import subprocess
import sys
import tempfile

HERE = os.path.dirname(os.path.abspath(__file__))
BITS = os.path.join(HERE, "..", "crates", "amr_bits")
CALLS = ["copy_to", "load", "put_bits"]
LEN = 244

PROGRAM = """\
//! Calls one function of `amr_bits` many times: its words are the function, a bit place, a number of bits and how many
//! times.
#![tactic(auto)]

ghost use Rattle.std.specs.Prelude.{ℕ, ◌≡◌, ◌<◌, ◌≤◌};

use amr_bits::{BitSlice, BitWriter, FixedBits};
use std::{env, io};

/// A bit place, a number of bits and how many calls.
#[derive(Drop)]
struct Work {
    place: usize,
    len: usize,
    calls: u64,
    ghost place_within: { place < 8 },
    ghost len_within: { len ≤ 248 },
}

impl Work {
    /// The run of one call, which begins at another octet from call to call.
    fn run<'a>(&self, octets: &'a [u8; 256], place: usize, call: u64) -> BitSlice<'a>
        requires { place < 8 }
        ensures { result.len ≡ self.now.len }
    {
        BitSlice {
            octets,
            start: place + 8 * (call % 128) as usize,
            len: self.len,
        }
    }

    fn copy_to(&self, octets: &[u8; 256]) -> u64 {
        let mut out = [0u8; 31];
        let mut sum = 0u64;
        for call in 0..self.calls {
            let run = self.run(octets, self.place, call);
            run.copy_to(&mut out[..run.len.div_ceil(8)]);
            sum ^= out[(call % 31) as usize] as u64;
        }
        sum
    }

    fn load(&self, octets: &[u8; 256]) -> u64 {
        let mut sum = 0u64;
        for call in 0..self.calls {
            let kept = FixedBits::<60>::load(self.run(octets, self.place, call));
            sum ^= kept.octet((call % 31) as usize) as u64;
        }
        sum
    }

    fn put_bits(&self, octets: &[u8; 256]) -> u64 {
        let mut out = [0u8; 40];
        let mut sum = 0u64;
        for call in 0..self.calls {
            let mut writer = BitWriter {
                written: self.place,
            };
            writer.put_bits(&mut out, self.run(octets, 0, call));
            sum ^= out[(call % 31) as usize] as u64;
        }
        sum
    }
}

/// Octets that differ.
fn octets() -> [u8; 256] {
    let mut octets = [0u8; 256];
    for at in 0..256usize {
        octets[at] = (at * at % 251) as u8;
    }
    octets
}

fn number(text: Option<String>) -> u64 {
    match text {
        Some(text) => text.parse().unwrap_or(0),
        None => 0,
    }
}

fn main(rt: HostRuntime) -> io::Result<()> {
    let mut words = env::args(&rt)?.skip(1);
    let kind = words.next();
    let work = Work {
        place: (number(words.next()) % 8) as usize,
        len: (number(words.next()) % 249) as usize,
        calls: number(words.next()),
    };
    let octets = octets();
    if let Some(kind) = kind {
        let sum = match kind.as_str() {
            "copy_to" => work.copy_to(&octets),
            "load" => work.load(&octets),
            "put_bits" => work.put_bits(&octets),
            _ => 0,
        };
        println!(rt; "{sum}")?;
    }
    Ok(())
}
"""


def build(folder):
    """Makes the program in a folder, and gives its path."""
    bits, program = (os.path.join(folder, "crates", name) for name in ("amr_bits", "bits_bench"))
    shutil.copytree(BITS, bits, ignore=shutil.ignore_patterns("out", "must-fail"))
    os.makedirs(os.path.join(program, "src"))
    with open(os.path.join(folder, "crates.txt"), "w") as crates:
        crates.write("amr_bits:\nbits_bench: amr_bits\n")
    with open(os.path.join(program, "src", "main.rt"), "w") as main_file:
        main_file.write(PROGRAM)
    built = subprocess.run(["rt", "run", "--", "none"], cwd=program, capture_output=True, text=True)
    if built.returncode:
        sys.exit(built.stderr + built.stdout)
    return os.path.join(program, "out", "bits_bench")


def once(program, name, place, calls):
    """Nanoseconds of processor time a call."""
    child = subprocess.Popen([program, name, str(place), str(LEN), str(calls)], stdout=subprocess.DEVNULL)
    _, status, used = os.wait4(child.pid, 0)
    child.returncode = os.waitstatus_to_exitcode(status)
    if child.returncode:
        sys.exit(f"{name} ended with status {child.returncode}")
    return used.ru_utime / calls * 1e9


def main():
    calls = int(sys.argv[1]) if len(sys.argv) > 1 else 10_000_000
    with tempfile.TemporaryDirectory() as folder:
        program = build(folder)
        print(f"{'place':9}" + "".join(f"{place:7}" for place in range(8)))
        for name in CALLS:
            best = [min(once(program, name, place, calls) for _ in range(5)) for place in range(8)]
            print(f"{name:9}" + "".join(f"{figure:7.1f}" for figure in best))


if __name__ == "__main__":
    main()
