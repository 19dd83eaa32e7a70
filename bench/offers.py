#!/usr/bin/env python3
"""Measures `answer` over the longest offers there may be, in milliseconds with the start of the program, the best of five runs.

    bench/offers.py

Each offer has up to 65,536 octets, filled with one thing. `true` stands beside them for the start of a program alone.
"""
import os
import subprocess
import time

HERE = os.path.dirname(os.path.abspath(__file__))
PROGRAM = os.environ.get("AMRGATE_PROGRAM") or os.path.join(HERE, "..", "crates", "amr_cli", "out", "amr_cli")
FRONT = b"m=audio 9 RTP/AVP 98\na=rtpmap:98 AMR/8000\n"
OFFERS = {
    "semicolons": (FRONT + b"a=fmtp:98 ", b";", 0),
    "parameters of other names": (FRONT + b"a=fmtp:98 ", b"foo;", 0),
    "empty lines": (FRONT, b"\n", 0),
    "maps of one type": (FRONT, b"a=rtpmap:98 AMR/8000\n", 0),
    "texts of parameters of one type": (FRONT, b"a=fmtp:98 crc=1\n", 0),
    "formats in the media line": (b"m=audio 9 RTP/AVP", b" 98", 7),
    "lines outside the audio section": (b"", b"v=0\n", 2),
}


def once(command, octets):
    """The milliseconds and the status of a run."""
    begin = time.perf_counter()
    ran = subprocess.run(command, input=octets, stdout=subprocess.DEVNULL, stderr=subprocess.DEVNULL)
    return (time.perf_counter() - begin) * 1000, ran.returncode


def main():
    print(f"{'offer':32} {'octets':>7} {'ms':>6}")
    print(f"{'true':32} {0:7} {min(once(['true'], b'')[0] for _ in range(5)):6.1f}")
    for name, (front, more, status) in OFFERS.items():
        octets = front + more * ((65536 - len(front)) // len(more))
        runs = [once([PROGRAM, "answer", "--codec", "AMR"], octets) for _ in range(5)]
        if any(ended != status for _, ended in runs):
            raise SystemExit(f"offers: {name}: statuses {[ended for _, ended in runs]}, and not {status}")
        print(f"{name:32} {len(octets):7} {min(ms for ms, _ in runs):6.1f}")


if __name__ == "__main__":
    main()
