#!/usr/bin/env python3
"""Makes packet logs (RFC 4571) and storage files (RFC 4867, 5) to measure with, always the same for
the same words.

    make_log.py speech PACKETS [SEED] > file    AMR, bandwidth-efficient, one frame a packet, in order
    make_log.py reorder PACKETS [SEED] > file   the same, shuffled within 8, 5 % lost, 5 % doubled
    make_log.py noise PACKETS [SEED] > file     records of random octets
    make_log.py file BLOCKS [SEED] > file       a storage file of AMR, with silences
    make_log.py wideband BLOCKS [SEED] > file   a storage file of AMR-WB, all of 23.85 kbit/s
    make_log.py six BLOCKS [SEED] > file        a storage file of AMR with six channels
"""
import random
import struct
import sys

BITS = [95, 103, 118, 134, 148, 159, 204, 244, 39] + [0] * 7
SID, NO_DATA = 8, 15


def payload(rng, ft):
    """CMR 15, one entry with F 0 and Q 1, and the frame's bits (RFC 4867, 4.3)."""
    head = 0b1111 << 6 | 0 << 5 | ft << 1 | 1
    bits = head << BITS[ft] | rng.getrandbits(BITS[ft]) if BITS[ft] else head
    count = 10 + BITS[ft]
    size = (count + 7) // 8
    return (bits << (8 * size - count)).to_bytes(size, "big")


def types(rng, packets):
    """Stretches of speech of one type, and of silence: a SID every eighth frame, NO_DATA between."""
    left = packets
    while left:
        ft, run = rng.randrange(8), min(left, rng.randrange(20, 200))
        yield from [ft] * run
        left -= run
        run = min(left, rng.randrange(0, 80))
        yield from (SID if k % 8 == 0 else NO_DATA for k in range(run))
        left -= run


def record(packet):
    return struct.pack(">H", len(packet)) + packet


def speech(rng, packets):
    for k, ft in enumerate(types(rng, packets)):
        head = struct.pack(">BBHII", 0x80, 0x60, k & 0xFFFF, 160 * k & 0xFFFFFFFF, 0)
        yield record(head + payload(rng, ft))


def reorder(rng, packets):
    held = []
    for one in speech(rng, packets):
        draw = rng.random()
        if draw < 0.05:
            continue
        held.extend([one] * (2 if draw < 0.10 else 1))
        while len(held) > 8:
            yield held.pop(rng.randrange(len(held)))
    yield from held


def frame(rng, ft, bits):
    """A frame of a storage file: its type, Q 1, and its bits, filled with zeros."""
    fill = -bits % 8
    return bytes([ft << 3 | 4]) + (rng.getrandbits(bits) << fill if bits else 0).to_bytes((bits + 7) // 8, "big")


def file(rng, blocks):
    yield b"#!AMR\n"
    for ft in types(rng, blocks):
        yield frame(rng, ft, BITS[ft])


def wideband(rng, blocks):
    yield b"#!AMR-WB\n"
    for _ in range(blocks):
        yield frame(rng, 8, 477)


def six(rng, blocks):
    yield b"#!AMR_MC1.0\n" + struct.pack(">I", 6)
    for ft in types(rng, blocks):
        for _ in range(6):
            yield frame(rng, ft, BITS[ft])


def noise(rng, packets):
    for _ in range(packets):
        yield record(rng.randbytes(rng.randrange(0, 80)))


def main():
    kind, packets = sys.argv[1], int(sys.argv[2])
    rng = random.Random(int(sys.argv[3]) if len(sys.argv) > 3 else 1)
    out = sys.stdout.buffer
    waiting = bytearray()
    kinds = [speech, reorder, noise, file, wideband, six]
    for one in {make.__name__: make for make in kinds}[kind](rng, packets):
        waiting += one
        if len(waiting) > 1 << 20:
            out.write(waiting)
            waiting.clear()
    out.write(waiting)


if __name__ == "__main__":
    main()
