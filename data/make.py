#!/usr/bin/env python3
"""Makes the logs of this folder, and what recording them gives, always the same.

    data/make.py [FOLDER]     into this folder by default

Nothing here comes from the program: frames, payloads and files are put together by RFC 4867 (tables of 3GPP TS 26.101 and
26.201), packets by RFC 3550, logs by RFC 4571, and each case says which of its frames the file has, and what is counted. The
speech bits are drawn and say nothing; the shape is that of calls: talk, then silence in which only descriptors are sent.
"""
import os
import struct
import sys

BITS = {
    "AMR": [95, 103, 118, 134, 148, 159, 204, 244, 39] + [0] * 7,
    "AMR-WB": [132, 177, 253, 285, 317, 365, 397, 461, 477, 40] + [0] * 6,
}
TICKS = {"AMR": 160, "AMR-WB": 320}
SID = {"AMR": 8, "AMR-WB": 9}
NO_DATA = (15, 1, "")
COUNTS = ["packets", "null", "rtp", "type", "payload", "place", "late", "copies", "blocks"]


class Draw:
    """Numbers that look drawn, the same on each machine (a linear congruential generator)."""

    def __init__(self, seed):
        self.state = seed

    def bit(self):
        self.state = (self.state * 6364136223846793005 + 1442695040888963407) % 2**64
        return self.state >> 63

    def frame(self, codec, ft, q=1):
        """A frame: its type, its quality bit and its speech bits as text."""
        return (ft, q, "".join(str(self.bit()) for _ in range(BITS[codec][ft])))


def octets(bits):
    """Bits as octets, the first one the most significant, filled up with 0."""
    bits += "0" * (-len(bits) % 8)
    return bytes(int(bits[i : i + 8], 2) for i in range(0, len(bits), 8))


def bandwidth_efficient(frames):
    """A payload of RFC 4867, 4.3: no mode request (15), an entry F, FT, Q for each frame, then their bits."""
    entries = [f"{int(i + 1 < len(frames))}{ft:04b}{q}" for i, (ft, q, _) in enumerate(frames)]
    return octets("1111" + "".join(entries) + "".join(bits for _, _, bits in frames))


def octet_aligned(frames):
    """A payload of RFC 4867, 4.4, with no CRCs, sorting or interleaving: each part fills its octets."""
    entries = [f"{int(i + 1 < len(frames))}{ft:04b}{q}00" for i, (ft, q, _) in enumerate(frames)]
    return octets("11110000" + "".join(entries)) + b"".join(octets(bits) for _, _, bits in frames)


def storage(codec, channels, blocks):
    """A file of RFC 4867, 5: the magic number, then for each frame time and channel a frame behind its octet 0, FT, Q, 00."""
    magic = "#!" + codec
    head = magic.encode() + b"\n" if channels == 1 else magic.encode() + b"_MC1.0\n" + struct.pack(">I", channels)
    return head + b"".join(octets(f"0{ft:04b}{q}00") + octets(bits) for block in blocks for ft, q, bits in block)


class Sender:
    """What sends a call: a source that gives each packet its number, and its timestamp by its frame time."""

    def __init__(self, codec, ssrc=0x5EEC4001, payload_type=96, sequence=7001, timestamp=3_000_000_000):
        self.codec, self.ssrc, self.payload_type = codec, ssrc, payload_type
        self.sequence, self.timestamp = sequence, timestamp

    def packet(self, place, payload, marker=0):
        """A packet of RFC 3550, 5.1, whose first frame is of the frame time `place`."""
        stamp = (self.timestamp + TICKS[self.codec] * place) % 2**32
        head = struct.pack(">BBHII", 0x80, marker << 7 | self.payload_type, self.sequence % 2**16, stamp, self.ssrc)
        self.sequence += 1
        return head + payload


def log(packets):
    """Packets, each behind its length in 16 bits (RFC 4571)."""
    return b"".join(struct.pack(">H", len(one)) + one for one in packets)


def counts(**given):
    """The line of the counts."""
    return " ".join(f"{name}={given.get(name, 0)}" for name in COUNTS) + "\n"


def call(codec, draw, spurts, speech):
    """The frames of a call by frame time: talk of so many frames, then silence of so many, in turns.

    In silence a descriptor (SID) is sent first, again after three frame times and then each eighth one; between them nothing.
    """
    frames = []
    for talk, silence in spurts:
        frames += [draw.frame(codec, next(speech)) for _ in range(talk)]
        frames += [draw.frame(codec, SID[codec]) if k == 0 or k % 8 == 3 else None for k in range(silence)]
    return frames


def always(ft):
    while True:
        yield ft


def in_turn(types, each):
    while True:
        for ft in types:
            yield from [ft] * each


def sent(sender, frames):
    """A packet for each frame that is sent, with its frame time; the marker stands where talk begins."""
    packets = []
    for place, frame in enumerate(frames):
        if frame is None:
            continue
        begins = frame[0] < SID[sender.codec] and (place == 0 or frames[place - 1] is None)
        packets.append((place, sender.packet(place, bandwidth_efficient([frame]), int(begins))))
    return packets


def blocks(frames):
    """One block for each frame time, NO_DATA where there is no frame."""
    return [[frame or NO_DATA] for frame in frames]


def one_frame():
    """One packet with a frame of 12.2 kbit/s whose bits are all 0."""
    frame = (7, 1, "0" * 244)
    packet = Sender("AMR", ssrc=0, sequence=0, timestamp=0).packet(0, bandwidth_efficient([frame]))
    return "record --codec AMR", 0, log([packet]), storage("AMR", 1, [[frame]]), counts(packets=1, blocks=1)


def speech():
    """A call in order: talk at 12.2 kbit/s, silence, talk."""
    frames = call("AMR", Draw(1), [(40, 24), (30, 12), (14, 0)], always(7))
    packets = [one for _, one in sent(Sender("AMR"), frames)]
    return "record --codec AMR", 0, log(packets), storage("AMR", 1, blocks(frames)), counts(packets=len(packets), blocks=120)


def loss():
    """Some packets are lost, one alone and four in a row: their frame times hold NO_DATA, and the file is as long as the call."""
    frames = call("AMR", Draw(2), [(50, 0)], always(7))
    lost = {9, 20, 21, 22, 23}
    packets = [one for place, one in sent(Sender("AMR"), frames) if place not in lost]
    kept = [None if place in lost else frame for place, frame in enumerate(frames)]
    return "record --codec AMR", 0, log(packets), storage("AMR", 1, blocks(kept)), counts(packets=45, blocks=50)


def reordered():
    """Packets come up to two frame times behind later ones: with a window of 3 all are in time. Modes change on the way."""
    frames = call("AMR", Draw(3), [(48, 0)], in_turn([7, 5, 2, 0], 6))
    packets = [one for _, one in sent(Sender("AMR", timestamp=2**32 - 1600), frames)]
    order = [at for k in range(0, 48, 3) for at in (k + 2, k, k + 1)]
    mixed = [packets[at] for at in order]
    return "record --codec AMR --window 3", 0, log(mixed), storage("AMR", 1, blocks(frames)), counts(packets=48, blocks=48)


def doubled():
    """Each fifth packet comes twice, and once the first copy is a damaged one (Q = 0): the better one is in the file."""
    draw = Draw(4)
    frames = call("AMR", draw, [(40, 0)], always(4))
    sender, packets = Sender("AMR"), []
    damaged = draw.frame("AMR", 4, q=0)
    for place, one in sent(sender, frames):
        if place == 15:
            packets.append(sender.packet(place, bandwidth_efficient([damaged])))
        packets += [one, one] if place % 5 == 0 and place != 15 else [one]
    return "record --codec AMR", 0, log(packets), storage("AMR", 1, blocks(frames)), counts(packets=48, copies=8, blocks=40)


def late():
    """With a window of 4 a packet that comes behind one 3 frame times later is in time, behind one 4 or more later it is late."""
    frames = call("AMR", Draw(5), [(40, 0)], always(7))
    packets = [one for _, one in sent(Sender("AMR"), frames)]
    behind = {10: 13, 20: 24, 30: 36}
    order = [at for at in range(40) if at not in behind]
    for held, after in behind.items():
        order.insert(order.index(after) + 1, held)
    kept = [None if place in (20, 30) else frame for place, frame in enumerate(frames)]
    words = "record --codec AMR --window 4"
    return words, 0, log([packets[at] for at in order]), storage("AMR", 1, blocks(kept)), counts(packets=40, late=2, blocks=40)


def packed():
    """Four frames a packet, the timestamp passing 2^32; one packet is lost."""
    frames = call("AMR", Draw(6), [(64, 0)], in_turn([6, 3], 8))
    sender, packets = Sender("AMR", sequence=65533, timestamp=2**32 - 3200), []
    for place in range(0, 64, 4):
        packets.append(sender.packet(place, bandwidth_efficient(frames[place : place + 4])))
    del packets[5]
    kept = [None if 20 <= place < 24 else frame for place, frame in enumerate(frames)]
    return "record --codec AMR", 0, log(packets), storage("AMR", 1, blocks(kept)), counts(packets=15, blocks=64)


def stereo():
    """Two channels, two frame times a packet: in the payload and the file each frame time has its left and its right frame."""
    draw = Draw(7)
    left, right = (call("AMR", draw, [(30, 0)], always(ft)) for ft in (7, 0))
    sender, packets = Sender("AMR"), []
    for place in range(0, 30, 2):
        frames = [left[place], right[place], left[place + 1], right[place + 1]]
        packets.append(sender.packet(place, bandwidth_efficient(frames)))
    file = storage("AMR", 2, [list(pair) for pair in zip(left, right)])
    return "record --codec AMR --channels 2", 0, log(packets), file, counts(packets=15, blocks=30)


def wideband():
    """AMR-WB: talk at three bit rates, silence, talk."""
    frames = call("AMR-WB", Draw(8), [(30, 20), (18, 0)], in_turn([8, 2, 0], 5))
    packets = [one for _, one in sent(Sender("AMR-WB", payload_type=97), frames)]
    file = storage("AMR-WB", 1, blocks(frames))
    return "record --codec AMR-WB", 0, log(packets), file, counts(packets=len(packets), blocks=68)


def stray():
    """A port on which other things come too: each is passed over, and counted by why."""
    draw = Draw(9)
    frames = call("AMR", draw, [(30, 0)], always(7))
    packets = [one for _, one in sent(Sender("AMR"), frames)]
    other = Sender("AMR", ssrc=0x0DDBA110, timestamp=77)
    strangers = [other.packet(k, bandwidth_efficient([draw.frame("AMR", 7)])) for k in range(3)]
    event = Sender("AMR", payload_type=101).packet(3, bytes([5, 10, 0, 160]))
    report = bytes([0x80, 200]) + struct.pack(">H", 6) + bytes(24)
    binding = struct.pack(">HHI", 1, 0, 0x2112A442) + bytes(12)
    short = Sender("AMR").packet(4, bandwidth_efficient([frames[4]])[:-1])
    mixed = packets[:3] + [event, report] + packets[3:9] + strangers[:2] + [b""] + packets[9:20] + [binding, short]
    mixed += packets[20:25] + strangers[2:] + packets[25:]
    line = counts(packets=len(mixed), null=1, rtp=1, type=2, payload=1, place=3, blocks=30)
    return "record --codec AMR --pt 96", 0, log(mixed), storage("AMR", 1, blocks(frames)), line


def cut():
    """The log ends inside its last packet, of which 20 octets came with its length: the file has what came before."""
    frames = call("AMR", Draw(10), [(25, 0)], always(7))
    packets = [one for _, one in sent(Sender("AMR"), frames)]
    whole = log(packets[:24])
    line = counts(packets=24, blocks=24) + "truncated have=20\n"
    return "record --codec AMR", 2, whole + log(packets[24:])[:20], storage("AMR", 1, blocks(frames[:24])), line


def octet_alignment():
    """Octet-aligned payloads, which are another format: none is taken, and the file is its header alone."""
    frames = call("AMR", Draw(11), [(20, 0)], always(7))
    sender = Sender("AMR")
    packets = [sender.packet(place, octet_aligned([frame])) for place, frame in enumerate(frames)]
    return "record --codec AMR", 0, log(packets), storage("AMR", 1, []), counts(packets=20, payload=20)


def misread():
    """Octet-aligned payloads of 4.75 kbit/s: read as bandwidth-efficient they are well-formed, each a frame with Q = 0.

    1111 0000 0000 0100 are the mode request and the entry of the octet-aligned form (F 0, type 0, Q 1). Read without the
    alignment they are the mode request, the entry 0 0000 0 and the first bits of the frame.
    """
    frames = call("AMR", Draw(12), [(20, 0)], always(0))
    sender = Sender("AMR")
    packets = [sender.packet(place, octet_aligned([frame])) for place, frame in enumerate(frames)]
    seen = [(0, 0, "000100" + bits[:89]) for _, _, bits in frames]
    return "record --codec AMR", 0, log(packets), storage("AMR", 1, blocks(seen)), counts(packets=20, blocks=20)


def anew():
    """The sender begins anew twice while its sequence numbers go on: on another grid of timestamps, and half an hour later.

    Each time the first packet is passed over, and with the next one the call goes on, right behind what came before.
    """
    draw = Draw(13)
    first = 3_000_000_000
    second = first + 20 * TICKS["AMR"] + 77
    parts = [(first, 20), (second, 15), (second + 90_000 * TICKS["AMR"], 12)]
    packets, kept, sequence = [], [], 7001
    for timestamp, talk in parts:
        frames = call("AMR", draw, [(talk, 0)], always(7))
        sender = Sender("AMR", sequence=sequence, timestamp=timestamp)
        packets += [one for _, one in sent(sender, frames)]
        sequence = sender.sequence
        kept += frames[1:] if kept else frames
    return "record --codec AMR", 0, log(packets), storage("AMR", 1, blocks(kept)), counts(packets=47, place=2, blocks=45)


CASES = [one_frame, speech, loss, reordered, doubled, late, packed, stereo, wideband, stray, cut, octet_alignment, misread, anew]


def capture(packets):
    """A capture (pcap) of the packets of a log, each in UDP to port 5004 over IPv4 and Ethernet, 20 ms apart."""
    made, at, k = struct.pack("<IHHiIII", 0xA1B2C3D4, 2, 4, 0, 0, 65535, 1), 0, 0
    while at < len(packets):
        size = struct.unpack_from(">H", packets, at)[0]
        datagram = struct.pack(">HHHH", 40000, 5004, 8 + size, 0) + packets[at + 2 : at + 2 + size]
        words = [0x4500, 20 + len(datagram), k, 0, 64 << 8 | 17, 0xC000, 0x0201, 0xC000, 0x0202]
        total = sum(words)
        while total > 0xFFFF:
            total = (total & 0xFFFF) + (total >> 16)
        words.insert(5, ~total & 0xFFFF)
        frame = bytes.fromhex("020000000002020000000001") + struct.pack(">H10H", 0x0800, *words) + datagram
        made += struct.pack("<IIII", 1_700_000_000 + k // 50, k % 50 * 20_000, len(frame), len(frame)) + frame
        at, k = at + 2 + size, k + 1
    return made


def main():
    folder = sys.argv[1] if len(sys.argv) > 1 else os.path.dirname(os.path.abspath(__file__))

    def put(name, octets):
        with open(os.path.join(folder, name), "wb") as file:
            file.write(octets)

    table = ["# NAME STATUS WORDS: what recording NAME.log by these words gives is NAME.amr, with the notes NAME.notes\n"]
    for case in CASES:
        words, status, packets, file, notes = case()
        table.append(f"{case.__name__} {status} {words}\n")
        put(f"{case.__name__}.log", packets)
        put(f"{case.__name__}.amr", file)
        put(f"{case.__name__}.notes", notes.encode())
    put("cases.txt", "".join(table).encode())
    put("speech.pcap", capture(speech()[2]))


if __name__ == "__main__":
    main()
