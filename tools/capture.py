"""Reads a capture: pcap in both byte orders, with micro- or nanoseconds, and pcapng. It has no command of its own."""
import collections
import struct
from fractions import Fraction

Packet = collections.namedtuple('Packet', 'number time link data length')  # time in seconds, length as on the wire

PCAP = {
    b'\xd4\xc3\xb2\xa1': ('<', 10**6),
    b'\xa1\xb2\xc3\xd4': ('>', 10**6),
    b'\x4d\x3c\xb2\xa1': ('<', 10**9),
    b'\xa1\xb2\x3c\x4d': ('>', 10**9),
}
PCAPNG = b'\x0a\x0d\x0d\x0a'
MAGIC, INTERFACE, SIMPLE, ENHANCED = 0x0A0D0D0A, 1, 3, 6
RESOLUTION = 9  # the option of an interface that says how long a unit of its time stamps is
MOST = 1 << 28  # bytes of a packet or of a block


class Malformed(Exception):
    """What is wrong with a capture, and at which packet."""


class Reader:
    """The bytes of a capture, and at which packet one is."""

    def __init__(self, file):
        self.file, self.number, self.order = file, 0, '<'

    def take(self, size, what):
        """So many bytes of a part."""
        if size > MOST:
            raise Malformed(f'packet {self.number}: {what} has {size:,} bytes, which is no length')
        data = self.file.read(size)
        if len(data) < size:
            raise Malformed(f'packet {self.number}: the file ends within {what}, {size - len(data)} bytes early')
        return data

    def numbers(self, form, data):
        """The numbers at the front of some bytes."""
        size = struct.calcsize(self.order + form)
        if len(data) < size:
            raise Malformed(f'packet {self.number}: a block is too short')
        return struct.unpack(self.order + form, data[:size])


def packets_of(file):
    """The packets of a capture, numbered from 1."""
    reader = Reader(file)
    magic = file.read(4)
    if magic in PCAP:
        reader.order, units = PCAP[magic]
        yield from classic(reader, units)
    elif magic == PCAPNG:
        yield from blocks(reader)
    else:
        raise Malformed(f'no capture: it begins with the bytes {magic.hex() or "(none)"}, and not as pcap or pcapng')


def classic(reader, units):
    """The packets of a pcap file behind its first word."""
    link = reader.numbers('HHiIII', reader.take(20, 'the header'))[5] & 0xFFFF
    while True:
        reader.number += 1
        head = reader.file.read(16)
        if not head:
            return
        if len(head) < 16:
            raise Malformed(f'packet {reader.number}: the file ends within its header, {16 - len(head)} bytes early')
        seconds, parts, size, length = reader.numbers('IIII', head)
        data = reader.take(size, 'its data')
        yield Packet(reader.number, seconds + Fraction(parts, units), link, data, length)


def blocks(reader):
    """The packets of a pcapng file behind its first word."""
    kind, interfaces, reader.number = MAGIC, [], 1
    while True:
        if kind == MAGIC:
            length = section(reader)
            reader.take(length - 16, 'a section header')
            interfaces = []
        else:
            (length,) = reader.numbers('I', reader.take(4, 'a block'))
            if length < 12 or length % 4:
                raise Malformed(f'packet {reader.number}: a block has {length} bytes, which is no length')
            body = reader.take(length - 12, 'a block')
            if kind == INTERFACE:
                interfaces.append(interface(reader, body))
            elif kind == ENHANCED:
                yield enhanced(reader, body, interfaces)
                reader.number += 1
            elif kind == SIMPLE:
                raise Malformed(f'packet {reader.number}: a simple packet block has no time stamp')
        reader.take(4, 'a block')
        word = reader.file.read(4)
        if not word:
            return
        if len(word) < 4:
            raise Malformed(f'packet {reader.number}: the file ends within a block')
        (kind,) = reader.numbers('I', word)


def section(reader):
    """The length of a section header, and from here on its byte order."""
    words = reader.take(8, 'a section header')
    orders = {b'\x4d\x3c\x2b\x1a': '<', b'\x1a\x2b\x3c\x4d': '>'}
    if words[4:] not in orders:
        raise Malformed(f'packet {reader.number}: a section header without a byte order')
    reader.order = orders[words[4:]]
    (length,) = reader.numbers('I', words)
    if length < 16 or length % 4:
        raise Malformed(f'packet {reader.number}: a section header has {length} bytes, which is no length')
    return length


def interface(reader, body):
    """The link type of an interface, and the units of its time stamps in a second."""
    link, at, units = reader.numbers('H', body)[0], 8, 10**6
    while at + 4 <= len(body):
        code, size = reader.numbers('HH', body[at:])
        if code == RESOLUTION and size == 1 and at + 4 < len(body):
            exponent = body[at + 4]
            units = 2 ** (exponent & 127) if exponent & 128 else 10**exponent
        at += 4 + (size + 3) // 4 * 4
    return link, units


def enhanced(reader, body, interfaces):
    """The packet of a block."""
    number, high, low, size, length = reader.numbers('IIIII', body)
    if number >= len(interfaces):
        raise Malformed(f'packet {reader.number}: no interface {number} is described before it')
    if 20 + size > len(body):
        raise Malformed(f'packet {reader.number}: {size} bytes in a block of {len(body)}')
    link, units = interfaces[number]
    return Packet(reader.number, Fraction(high << 32 | low, units), link, body[20 : 20 + size], length)
