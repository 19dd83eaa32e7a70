#!/usr/bin/env python3
"""Measures the reader of payloads: nanoseconds for a payload of four frames and all of its frames, the best of five runs.

    bench/payloads.py [PAYLOADS]      one million payloads a run by default

The payloads are of AMR-WB frames of 23.85 kbit/s: bandwidth-efficient, octet-aligned, and octet-aligned with CRCs, with
robust sorting, and with both. A program of its own is made in a temporary folder, over copies of the crates below
`amr_payload`, and proved and built there as any other.
"""
import os
import shutil
import subprocess
import sys
import tempfile

HERE = os.path.dirname(os.path.abspath(__file__))
TOP = os.path.join(HERE, "..")
FRAMES, BITS, CLASS_A, TYPE = 4, 477, 72, 8

PROGRAM = """\
//! Reads one payload many times: its words are the form of the payload and how many times.
#![tactic(auto)]

use amr_frame::{Codec, Profile};
use amr_payload::read_payload;
use std::{env, io};

OCTETS

/// Reads the payload and all of its frames so many times.
fn read(profile: &Profile, octets: &[u8], calls: u64) -> u64 {
    if let Err(_) = profile.check() {
        return 0;
    }
    let mut sum = 0u64;
    for call in 0..calls {
        if let Ok(view) = read_payload(profile, octets) {
            for at in 0..view.frames() {
                let cell = view.frame(at);
                sum ^= cell.bits.octet((call % 60) as usize) as u64;
                if cell.q {
                    sum ^= 256;
                }
            }
        }
    }
    sum
}

fn main(rt: HostRuntime) -> io::Result<()> {
    let mut words = env::args(&rt)?.skip(1);
    let form = match words.next() {
        Some(form) => form,
        None => return Ok(()),
    };
    let calls = match words.next() {
        Some(text) => text.parse().unwrap_or(0u64),
        None => 0,
    };
    let mut profile = Profile::plain(Codec::AmrWb, 1);
    let mut octets: &[u8] = &PACKED;
    match form.as_str() {
        "packed" => {}
        "aligned" => octets = &ALIGNED,
        "crc" => octets = &CHECKED,
        "sorted" => octets = &SORTED,
        _ => octets = &BOTH,
    }
    profile.octet_aligned = form.as_str() != "packed";
    profile.crc = form.as_str() == "crc" || form.as_str() == "both";
    profile.sorting = form.as_str() == "sorted" || form.as_str() == "both";
    let sum = read(&profile, octets, calls);
    println!(rt; "{sum}")?;
    Ok(())
}
"""


def frame(k):
    """The bits of a frame."""
    return [(i * i * (k + 3) // 7) % 2 for i in range(BITS)]


def packed(bits):
    """Bits filled up to whole octets."""
    bits = bits + [0] * (-len(bits) % 8)
    return [int("".join(map(str, bits[i : i + 8])), 2) for i in range(0, len(bits), 8)]


def crc(bits):
    """The remainder of the bits and eight zeros by x^8 + x^4 + x^3 + x^2 + 1."""
    register = 0
    for bit in bits + [0] * 8:
        register = register << 1 | bit
        if register & 256:
            register ^= 0x11D
    return register


def payload(aligned, checked, ordered):
    """The payload of the frames, with CMR 15 and Q = 1."""
    frames = [frame(k) for k in range(FRAMES)]
    entry = [[k < FRAMES - 1] + [TYPE >> s & 1 for s in (3, 2, 1, 0)] + [1] for k in range(FRAMES)]
    if not aligned:
        return packed([1] * 4 + [int(b) for e in entry for b in e] + [b for f in frames for b in f])
    octets = [0xF0] + [packed([int(b) for b in e])[0] for e in entry]
    if checked:
        octets += [crc(f[:CLASS_A]) for f in frames]
    bodies = [packed(f) for f in frames]
    if ordered:
        return octets + [body[o] for o in range(len(bodies[0])) for body in bodies]
    return octets + [o for body in bodies for o in body]


FORMS = {
    "packed": payload(False, False, False),
    "aligned": payload(True, False, False),
    "crc": payload(True, True, False),
    "sorted": payload(True, False, True),
    "both": payload(True, True, True),
}
NAMES = {"packed": "PACKED", "aligned": "ALIGNED", "crc": "CHECKED", "sorted": "SORTED", "both": "BOTH"}


def needed():
    """The lines of crates.txt for `amr_payload` and all that it stands on here."""
    lines = {}
    with open(os.path.join(TOP, "crates.txt")) as crates:
        for line in crates:
            if ":" in line and not line.startswith("#"):
                name, rest = line.split(":", 1)
                lines[name] = rest.split()
    names, todo = [], ["amr_payload"]
    while todo:
        name = todo.pop()
        if name in lines and name not in names:
            names.append(name)
            todo += lines[name]
    return {name: lines[name] for name in names}


def build(folder):
    """Makes the program in a folder, and gives its path."""
    program = os.path.join(folder, "crates", "payload_bench")
    os.makedirs(os.path.join(program, "src"))
    crates = needed()
    with open(os.path.join(folder, "crates.txt"), "w") as out:
        for name, rest in crates.items():
            shutil.copytree(os.path.join(TOP, "crates", name), os.path.join(folder, "crates", name), ignore=shutil.ignore_patterns("out", "must-fail"))
            out.write(f"{name}: {' '.join(rest)}\n")
        out.write("payload_bench: amr_frame amr_payload\n")
    octets = "\n".join(f"const {NAMES[form]}: [u8; {len(text)}] = [{', '.join(map(str, text))}];" for form, text in FORMS.items())
    with open(os.path.join(program, "src", "main.rt"), "w") as main_file:
        main_file.write(PROGRAM.replace("OCTETS", octets))
    built = subprocess.run(["rt", "run", "--", "none"], cwd=program, capture_output=True, text=True)
    if built.returncode:
        sys.exit(built.stderr + built.stdout)
    return os.path.join(program, "out", "payload_bench")


def once(program, form, payloads):
    """Nanoseconds of processor time a payload, and what the program printed."""
    child = subprocess.Popen([program, form, str(payloads)], stdout=subprocess.PIPE)
    printed = child.stdout.read()
    _, status, used = os.wait4(child.pid, 0)
    child.returncode = os.waitstatus_to_exitcode(status)
    if child.returncode or printed.strip() == b"0":
        sys.exit(f"{form} ended with status {child.returncode} and printed {printed}")
    return used.ru_utime / payloads * 1e9


def main():
    payloads = int(sys.argv[1]) if len(sys.argv) > 1 else 1_000_000
    with tempfile.TemporaryDirectory() as folder:
        program = build(folder)
        print(f"{'form':8} {'octets':>6} {'ns a payload':>12}")
        for form, text in FORMS.items():
            best = min(once(program, form, payloads) for _ in range(5))
            print(f"{form:8} {len(text):6} {best:12.0f}")


if __name__ == "__main__":
    main()
