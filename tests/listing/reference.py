#!/usr/bin/env python3
"""reference.py < STREAM: the listing of a stream, written from the listing's description alone and not from the program.

The expected listings of this folder are its output (`streams.py write`), so program and expectation have no code in common.
"""
import struct
import sys


class Refused(Exception):
    """A body that cannot be read; the argument is the number."""


class Body:
    """The fields of a body, read from its first byte on."""

    def __init__(self, data):
        self.data, self.at = data, 0

    def number(self, width):
        if len(self.data) - self.at < width:
            raise Refused(7)
        self.at += width
        return int.from_bytes(self.data[self.at - width:self.at], 'little')

    def string(self, width, limit):
        units, at = [], self.at
        while len(self.data) - at >= width:
            unit = int.from_bytes(self.data[at:at + width], 'little')
            at += width
            if unit == 0:
                if len(units) > limit:
                    raise Refused(19)
                self.at = at
                return units
            units.append(unit)
        raise Refused(8)


def escaped(units):
    return ''.join(chr(u) if 32 <= u <= 126 and u != ord('\\') else '\\%04X' % u for u in units)


# a field is a function of a body that gives its lines

def number(name, width):
    return lambda body: ['%s=%d' % (name, body.number(width))]


def bits(name):
    return lambda body: ['%s=%08X' % (name, body.number(4))]


def code(name, limit, refusal):
    def lines(body):
        n = body.number(1)
        if n >= limit:
            raise Refused(refusal)
        return ['%s=%d' % (name, n)]
    return lines


def cstring(name, limit=255):
    return lambda body: ['%s=%s' % (name, escaped(body.string(1, limit)))]


def ucs2(name):
    return lambda body: ['%s=%s' % (name, escaped(body.string(2, 255)))]


def items(count, width, *fields):
    def lines(body):
        n = body.number(width)
        result = ['%s=%d' % (count, n)]
        for _ in range(n):
            result += record(body, fields)
        return result
    return lines


def numbers(name, width):
    return items(name + '.count', 2, number(name, width))


def data(body):
    n = body.number(2)
    return ['data_size=%d' % n, 'data=' + ''.join('%02X' % body.number(1) for _ in range(n))]


def record(body, fields):
    return [line for field in fields for line in field(body)]


FIXTURE = (
    number('fixture_identifier', 4), ucs2('manufacturer_name'), ucs2('fixture_name'), ucs2('mode_name'), number('channel_count', 2), number('is_dimmer', 1),
    items('identifier_count', 1, code('identifier_type', 6, 10), data),
    number('patched', 1), number('universe', 1), number('universe_channel', 2), ucs2('unit'), number('channel', 2), ucs2('circuit'), ucs2('note'),
    *[bits('position')] * 3, *[bits('angles')] * 3,
)

# layer, content type, name, fields
KINDS = {(layer, type_): (name, fields) for layer, type_, name, *fields in (
    (b'CAEX', 0x00020100, 'EnterShow', ucs2('name')),
    (b'CAEX', 0x00020201, 'FixtureList', code('message_type', 3, 9), items('fixture_count', 2, *FIXTURE)),
    (b'CAEX', 0x00020203, 'FixtureRemove', items('fixture_count', 2, number('fixture_identifiers', 4))),
    (b'CAEX', 0x00030102, 'LaserFeedControl', number('feed_index', 1), number('frame_rate', 1)),
    (b'CAEX', 0x00030101, 'LaserFeedList', number('source_key', 4), items('feed_count', 1, ucs2('feed_names'))),
    (b'CAEX', 0x00030200, 'LaserFeedFrame', number('source_key', 4), number('feed_index', 1), number('frame_sequence', 4),
     items('point_count', 2, number('x_low_byte', 1), number('y_low_byte', 1), number('xy_high_nibbles', 1), number('color', 2))),
    (b'SDMX', b'Capa', 'Capa', numbers('capabilities', 2)),
    (b'SDMX', b'UNam', 'UNam', number('universe_index', 1), cstring('universe_name')),
    (b'SDMX', b'ChBk', 'ChBk', number('blind', 1), number('universe_index', 1), number('first_channel', 2), numbers('channel_levels', 1)),
    (b'SDMX', b'ChLs', 'ChLs', items('channel_levels.count', 2, number('universe_index', 1), number('channel', 2), number('channel_level', 1))),
    (b'SDMX', b'SXUS', 'Sxus', number('universe_index', 1), cstring('connection_string')),
    (b'FPTC', b'Ptch', 'Ptch', number('fixture_identifier', 2), number('universe', 1), number('reserved', 1), number('channel', 2),
     number('channel_count', 2), cstring('fixture_make'), cstring('fixture_name')),
    (b'FPTC', b'UPtc', 'UPtc', numbers('fixture_identifiers', 2)),
    (b'FPTC', b'SPtc', 'SPtc', numbers('fixture_identifiers', 2)),
    (b'FSEL', b'Sele', 'Sele', number('complete', 1), number('reserved', 1), numbers('fixture_identifiers', 2)),
    (b'FSEL', b'DeSe', 'DeSe', numbers('fixture_identifiers', 2)),
    (b'FINF', b'SFra', 'SFra', numbers('fixture_identifiers', 2)),
    (b'FINF', b'Fram', 'Fram', number('fixture_identifier', 2), number('frame_filter_count', 1), number('frame_gobo_count', 1),
     cstring('frame_names', 65535)),
    (b'PINF', b'PNam', 'PNam', cstring('name')),
    (b'PINF', b'PLoc', 'PLoc', number('listening_tcp_port', 2), cstring('kind'), cstring('name'), cstring('state')),
)}
LAYERS = {layer for layer, _ in KINDS}


def content(packet):
    """What a packet holds: its lines from `report` on."""
    count, part = struct.unpack('<HH', packet[12:16])
    layer = packet[16:20]
    if count > 1 or part > 0:
        return ['report=fragment', 'part=%d' % part, 'of=%d' % count]
    cookie = 'layer=%08X' % int.from_bytes(layer, 'little')
    if layer not in LAYERS:
        return ['report=unknown', cookie]
    start = 28 if layer == b'FPTC' else 24
    if len(packet) < start:
        return ['report=refused', 'refusal=6']
    letters, type_ = packet[20:24], int.from_bytes(packet[20:24], 'little')
    kind = KINDS.get((layer, letters)) or KINDS.get((layer, type_))
    if kind is None:
        return ['report=unknown', cookie, 'type=%08X' % type_]
    hint = ['content_hint=%d' % int.from_bytes(packet[24:28], 'little')] if layer == b'FPTC' else []
    body = Body(packet[start:])
    try:
        fields = record(body, kind[1])
    except Refused as refused:
        return ['report=refused', 'refusal=%d' % refused.args[0]]
    return ['report=message', 'kind=' + kind[0], *hint, *fields, 'extra=%d' % (len(body.data) - body.at)]


def stop(rest):
    """The number with which the walk ends here, or none."""
    if not rest:
        return 0
    if len(rest) < 20:
        return 1
    if rest[:4] != b'CITP':
        return 2
    if rest[4] != 1:
        return 3
    size = int.from_bytes(rest[8:12], 'little')
    if not 20 <= size <= 16777216:
        return 4
    return 5 if size > len(rest) else None


def listing(stream):
    lines, at, packets = [], 0, 0
    while stop(stream[at:]) is None:
        request_index, size = struct.unpack('<HI', stream[at + 6:at + 12])
        lines += ['at=%d' % at, 'size=%d' % size, 'request_index=%d' % request_index, *content(stream[at:at + size])]
        at, packets = at + size, packets + 1
    return '\n'.join([*lines, 'packets=%d' % packets, 'stop=%d' % stop(stream[at:])]) + '\n'


if __name__ == '__main__':
    sys.stdout.buffer.write(listing(sys.stdin.buffer.read(65536)).encode('ascii'))
