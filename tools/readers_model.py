#!/usr/bin/env python3
"""readers_model.py FILE: what the program `readers` prints of FILE, by a model of its own.

Written from document 01 (records, settings, schedules), docs/READINGS.md and data.rs, link.rs and info.rs, and not
from the Rattle code. It also checks what it reads against the numbers 1, 2 and 3 of the cases' own answers.
The sums say in which order what was read is mixed; that order alone is agreed on with the program.
"""
import functools
import struct
import sys

BUFFER = 65536
RECORDS_DAMAGED = 20
LONGEST_DAMAGED = 700
ZERO = bytes(32)

# ---- document 01: fields of a tag, a length and content


def fields(data):
    """The (tag, content) pairs of a slice, or None if it does not end with a field."""
    out = []
    while data:
        if len(data) < 3:
            return None
        tag, length = struct.unpack_from("<BH", data)
        if len(data) < 3 + length:
            return None
        out.append((tag, data[3 : 3 + length]))
        data = data[3 + length :]
    return out


def rising_peers(content):
    """0 to 255 strictly rising peers, or None."""
    if len(content) % 32 or len(content) // 32 > 255:
        return None
    out = [content[i : i + 32] for i in range(0, len(content), 32)]
    return out if all(a < b for a, b in zip(out, out[1:])) else None


def map_of(content):
    """A map from 0 to 255 peers, rising, which stand first, to their digests in the same order, or None."""
    if len(content) % 64:
        return None
    half = len(content) // 2
    peers = rising_peers(content[:half])
    return None if peers is None else {peer: content[half + 32 * i : half + 32 * i + 32] for i, peer in enumerate(peers)}


def point_id(data):
    return struct.unpack("<I32s32s", data)


def link(content):
    """(through map, peer, target id or None), or None."""
    if len(content) not in (34, 102):
        return None
    kind, through = content[0], content[1]
    if through > 1 or kind != (len(content) == 102):
        return None
    return through, content[2:34], point_id(content[34:]) if kind else None


def role(content):
    """(role, seq_no, is_last), or None."""
    if len(content) == 3 and content[0] == 1 and content[2] <= 1:
        return tuple(content)
    if len(content) == 1 and content[0] in (0, 2, 3):
        return content[0], None, None
    return None


class Point:
    """A point record; `ok` says whether it is readable."""

    def __init__(self, data):
        self.ok = False
        parts = fields(data)
        if parts is None or [tag for tag, _ in parts] != list(range(1, 10)):
            return
        c = [content for _, content in parts]
        if (len(c[0]), len(c[1]), len(c[8])) != (68, 8, 16):
            return
        self.id = point_id(c[0])
        self.payload = struct.unpack("<II", c[1])
        self.maps = [map_of(c[2]), map_of(c[3])]
        self.evidence = rising_peers(c[4])
        self.links = [link(c[5]), link(c[6])]
        self.role = role(c[7])
        if None in (*self.maps, self.evidence, *self.links, self.role):
            return
        self.times = struct.unpack("<QQ", c[8])
        self.ok = True

    # ---- data.rs, link.rs, info.rs

    def is_anchor_proof(self):
        return self.role[0] in (1, 3)

    def is_anchor_trigger(self):
        return self.role[0] in (2, 3) or (self.role[0] == 1 and self.role[1] > 0)

    def is_anchor_stage(self, stage):
        return self.is_anchor_trigger() if stage else self.is_anchor_proof()

    def requires_prev_point(self):
        return self.role[0] in (1, 2)

    def prev_digest(self):
        return self.maps[0].get(self.id[2])

    def is_wave_far_enough(self):
        target = self.links[0][2]
        return target is not None and self.id[0] - target[0] >= 4

    def is_wave_link_ok(self, is_leader):
        if self.role[0] == 0:
            return not (is_leader and self.prev_digest() is not None and self.is_wave_far_enough())
        if self.role[:2] == (1, 0):
            return is_leader and self.is_wave_far_enough()
        return True

    def through_id(self, stage):
        """The point that a link goes through; rounds are floored at 0."""
        through, peer, _ = self.links[stage]
        digest = self.maps[through].get(peer)
        return None if digest is None else (max(0, self.id[0] - 1 - through), digest, peer)

    def anchor(self, stage):
        """Top, target and source. Where the Rust panics, the link's peer not being in its map, the digest is 0."""
        through, peer, target = self.links[stage]
        source = self.through_id(stage) or (max(0, self.id[0] - 1 - through), ZERO, peer)
        target = target or source
        return (self.id if self.is_anchor_stage(stage) else target), target, source


# ---- settings and schedules


def settings(data):
    parts = fields(data)
    if parts is None or [(t, len(c)) for t, c in parts] != [(32, 44)]:
        return None
    s = struct.unpack("<I32sIBHB", parts[0][1])
    usable = 4 <= s[0] <= 2147483647 and s[2] >= 1 and s[4] >= 1 and s[5] >= 1
    return s if usable else None


class Schedule:
    def __init__(self, data):
        self.ok = False
        parts = fields(data)
        if parts is None or not 2 <= len(parts) <= 5 or [t for t, _ in parts] != [34] * (len(parts) - 1) + [35]:
            return
        if len(parts[-1][1]) != 4 or any(len(c) < 4 for _, c in parts):
            return
        self.spans = [(int.from_bytes(c[:4], "little"), rising_peers(c[4:])) for _, c in parts[:-1]]
        self.last_known = int.from_bytes(parts[-1][1], "little")
        firsts = [first for first, _ in self.spans]
        if any(span is None for _, span in self.spans) or any(a >= b for a, b in zip(firsts, firsts[1:])):
            return
        self.ok = True

    def span_for(self, rnd):
        if rnd > self.last_known:
            return None
        return max((i for i, (first, _) in enumerate(self.spans) if first <= rnd), default=None)

    def peers_for(self, rnd):
        i = self.span_for(rnd)
        return [] if i is None else self.spans[i][1]

    def require_regular_points(self, rnd):
        i, j = self.span_for(rnd), self.span_for(rnd + 4)
        return None if None in (i, j) else i != j


# ---- the sums


def mix(total, *numbers):
    for n in numbers:
        total = (total * 2654435761 + int(n)) % 2**64
    return total


def words(some_id):
    return struct.unpack(">4Q", some_id)


def id_numbers(i):
    return (i[0],) + words(i[1]) + words(i[2])


@functools.lru_cache(maxsize=4096)
def sum_of_ids(count, ids):
    return mix(0, count, *(w for i in ids for w in words(i)))


def sum_of_settings(s):
    return mix(0, s[0], *words(s[1]), *s[2:])


def sum_of_schedule(s):
    def around(total, rnd):
        for r in ((rnd + k) % 2**32 for k in range(-5, 2)):
            span, needed, peers = s.span_for(r), s.require_regular_points(r), s.peers_for(r)
            total = mix(total, 0 if span is None else span + 1, sum_of_ids(len(peers), tuple(peers)))
            total = mix(total, 0 if needed is None else needed + 1)
        return total

    total = mix(0, len(s.spans))
    for first, _ in s.spans:
        total = around(mix(total, first), first)
    return around(mix(total, s.last_known), s.last_known)


def sum_of_point(p):
    total = mix(0, *id_numbers(p.id), *p.payload)
    for m in p.maps:
        total = mix(total, sum_of_ids(len(m), tuple(i for pair in m.items() for i in pair)))
    total = mix(total, sum_of_ids(len(p.evidence), tuple(p.evidence)))
    for through, peer, target in p.links:
        total = mix(total, target is not None, through, *words(peer), *(id_numbers(target) if target else ()))
    role_numbers = p.role if p.role[0] == 1 else p.role[:1]
    total = mix(total, *role_numbers, *p.times)

    total = mix(total, p.is_anchor_proof(), p.is_anchor_trigger())
    total = mix(total, p.is_anchor_stage(0), p.is_anchor_stage(1), p.requires_prev_point())
    total = mix(total, *((1,) + p.role[1:] if p.role[0] == 1 else (0,)))
    prev = p.prev_digest()
    total = mix(total, *((1,) + words(prev) if prev is not None else (0,)))
    total = mix(total, p.is_wave_link_ok(True), p.is_wave_link_ok(False))
    for stage in (0, 1):
        through = p.through_id(stage)
        total = mix(total, *((1,) + id_numbers(through) if through else (0,)))
    for stage in (0, 1):
        for i in p.anchor(stage):
            total = mix(total, *id_numbers(i))
    return total


class Tally:
    def __init__(self):
        self.readable = self.unreadable = self.sum = 0

    def add(self, total):
        """Counts one that was read, or with None one that was not."""
        if total is None:
            self.unreadable += 1
            self.sum = mix(self.sum, 0)
        else:
            self.readable += 1
            self.sum = mix(self.sum, 1, total)
        return total is not None


# ---- the file


def cases(data):
    at = 0
    while at < len(data):
        kind, count = data[at], data[at + 1]
        at += 2
        blobs = []
        for _ in range(count):
            n = int.from_bytes(data[at : at + 4], "little")
            blobs.append(data[at + 4 : at + 4 + n])
            assert len(blobs[-1]) == n
            at += 4 + n
        yield kind, blobs


def damaged(rec):
    for i, byte in enumerate(rec):
        for other in ((byte + 1) % 256, byte ^ 255):
            yield rec[:i] + bytes([other]) + rec[i + 1 :]
    for n in range(len(rec)):
        yield rec[:n]
    yield rec + b"\0"


def main():
    with open(sys.argv[1], "rb") as f:
        data = f.read()
    count = too_long = copied = 0
    t_settings, t_schedules, t_records, t_damaged = (Tally() for _ in range(4))

    def read_settings(s):
        r = settings(s)
        return t_settings.add(None if r is None else sum_of_settings(r))

    def read_schedule(s):
        r = Schedule(s)
        return t_schedules.add(sum_of_schedule(r) if r.ok else None)

    def read_record(s, tally):
        r = Point(s)
        return tally.add(sum_of_point(r) if r.ok else None)

    for kind, blobs in cases(data):
        count += 1
        if kind not in (1, 2):
            continue
        readers = (read_settings, read_schedule, lambda s: read_record(s, t_records))
        first = 0
        for number, (reader, blob) in enumerate(zip(readers, blobs), 1):
            if len(blob) > BUFFER:
                too_long += 1
                ok = False
            else:
                ok = reader(blob)
            first = first or (0 if ok else number)
        answer = blobs[-1][0]
        assert first == (answer if answer in (1, 2, 3) else 0), (count, kind, first, answer)
        if len(blobs[2]) <= LONGEST_DAMAGED and copied < RECORDS_DAMAGED:
            copied += 1
            for copy in damaged(blobs[2]):
                read_record(copy, t_damaged)

    total = mix(0, t_settings.sum, t_schedules.sum, t_records.sum)
    for name, n in (
        ("cases", count),
        ("too long", too_long),
        ("settings usable", t_settings.readable),
        ("settings unusable", t_settings.unreadable),
        ("schedules readable", t_schedules.readable),
        ("schedules unreadable", t_schedules.unreadable),
        ("records readable", t_records.readable),
        ("records unreadable", t_records.unreadable),
        ("sum", total),
        ("records damaged", copied),
        ("damaged copies readable", t_damaged.readable),
        ("damaged copies unreadable", t_damaged.unreadable),
        ("damaged copies sum", t_damaged.sum),
    ):
        print(name, n)


if __name__ == "__main__":
    main()
