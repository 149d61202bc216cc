#!/usr/bin/env python3
"""Captures made byte by byte: what checks/feeds tries tools/pcap with, and the one that the recipes read. Run alone it
writes that one to docs/recipes/capture.pcap, and with --check compares it.

    checks/captures.py [--check]
"""
import argparse
import struct
import sys

from common import HOME

SAMPLE = f'{HOME}/docs/recipes/capture.pcap'
NOON = 1_796_040_000  # 2026-11-30T12:00:00Z
FIN, SYN, RST, PSH, ACK = 1, 2, 4, 8, 16
TCP, UDP, ICMP, ICMP6 = 6, 17, 1, 58
ARP, IPV4, IPV6, VLAN = 0x0806, 0x0800, 0x86DD, 0x8100


def address(text):
    """The number of an address with dots."""
    return int.from_bytes(bytes(map(int, text.split('.'))), 'big')


def ethernet(kind, data, vlans=()):
    """A frame, with its VLAN tags."""
    tags = b''.join(struct.pack('>HH', VLAN, it) for it in vlans)
    return bytes.fromhex('020000000001020000000002') + tags + struct.pack('>H', kind) + data


def ipv4(src, dst, proto, data, fragment=0, length=None, options=b''):
    """A packet of IPv4, without checksums."""
    head = 20 + len(options)
    length = head + len(data) if length is None else length
    words = 0x40 | head // 4, 0xB8, length, 7, fragment, 64, proto, 0, address(src), address(dst)
    return struct.pack('>BBHHHBBHII', *words) + options + data


def ipv6(src, dst, proto, data, extensions=()):
    """A packet of IPv6, between addresses that are numbers; an extension is its number and its bytes behind the
    first."""
    for number, rest in reversed(extensions):
        proto, data = number, bytes([proto]) + rest + data
    head = struct.pack('>IHBB', 0x6 << 28 | 0x2E << 22, len(data), proto, 61)
    return head + src.to_bytes(16, 'big') + dst.to_bytes(16, 'big') + data


def tcp(sport, dport, flags, data=b'', seq=1):
    """A segment."""
    return struct.pack('>HHIIBBHHH', sport, dport, seq, 0, 0x50, flags, 1024, 0, 0) + data


def udp(sport, dport, data=b''):
    """A datagram."""
    return struct.pack('>HHHH', sport, dport, 8 + len(data), 0) + data


def icmp(kind, code, data=b''):
    """A message."""
    return struct.pack('>BBHI', kind, code, 0, 0) + data


def pcap(packets, order='<', units=10**6, link=1, cut=None):
    """A capture of packets, each with its time in nanoseconds, of which at most so many bytes are kept."""
    out = struct.pack(f'{order}IHHiIII', 0xA1B2C3D4 if units == 10**6 else 0xA1B23C4D, 2, 4, 0, 0, 65535, link)
    for time, frame in packets:
        parts = time % 10**9 * units // 10**9
        out += struct.pack(f'{order}IIII', time // 10**9, parts, len(frame[:cut]), len(frame)) + frame[:cut]
    return out


def block(order, kind, body):
    """A block of pcapng."""
    body += bytes(-len(body) % 4)
    length = struct.pack(f'{order}I', len(body) + 12)
    return struct.pack(f'{order}I', kind) + length + body + length


def pcapng(packets, order='<', resolution=6, link=1):
    """The same as pcapng, with time stamps in units of 10 to the power of -resolution."""
    out = block(order, 0x0A0D0D0A, struct.pack(f'{order}IHHq', 0x1A2B3C4D, 1, 0, -1))
    option = struct.pack(f'{order}HHB3xHH', 9, 1, resolution, 0, 0)
    out += block(order, 1, struct.pack(f'{order}HHI', link, 0, 65535) + option)
    out += block(order, 5, bytes(12))  # a block of statistics, which nothing reads
    for time, frame in packets:
        stamp = time * 10**resolution // 10**9
        words = struct.pack(f'{order}IIIII', 0, stamp >> 32, stamp & 0xFFFFFFFF, len(frame), len(frame))
        out += block(order, 6, words + frame)
    return out


def hashed(data):
    """FNV-1a of 64 bits."""
    value = 14695981039346656037
    for byte in data:
        value = (value ^ byte) * 1099511628211 % 2**64
    return value


def sample():
    """Three seconds of a small network: a name is asked for, a page is fetched, and a host is flooded."""
    host, server, name, victim = '10.0.0.1', '10.0.0.80', '10.0.0.53', '10.0.0.99'
    frames = [
        (0.100, ethernet(ARP, bytes(28))),
        (0.200, ethernet(IPV4, ipv4(host, name, UDP, udp(5353, 53, bytes(32))))),
        (0.201, ethernet(IPV4, ipv4(name, host, UDP, udp(53, 5353, bytes(48))))),
        (0.300, ethernet(IPV4, ipv4(host, server, TCP, tcp(40000, 80, SYN)))),
        (0.301, ethernet(IPV4, ipv4(server, host, TCP, tcp(80, 40000, SYN | ACK)))),
        (0.302, ethernet(IPV4, ipv4(host, server, TCP, tcp(40000, 80, ACK)))),
        (1.250, ethernet(IPV4, ipv4(server, host, TCP, tcp(80, 40000, PSH | ACK, bytes(1400))))),
        *(
            (1.5 + it / 1000, ethernet(IPV4, ipv4(f'192.0.2.{it}', victim, TCP, tcp(1024 + it, 443, SYN))))
            for it in range(1, 6)
        ),
        (1.900, ethernet(IPV4, ipv4(host, server, TCP, tcp(40001, 80, SYN)))),
        (2.400, ethernet(IPV4, ipv4(host, server, TCP, tcp(40000, 80, FIN | ACK)))),
        (2.500, ethernet(IPV6, ipv6(1, 2, ICMP6, icmp(128, 0)))),
    ]
    return pcap([(NOON * 10**9 + round(time * 10**9), frame) for time, frame in frames])


def main():
    words = argparse.ArgumentParser(description=__doc__, formatter_class=argparse.RawDescriptionHelpFormatter)
    words.add_argument('--check', action='store_true', help='compare, and write nothing')
    asked = words.parse_args()
    if asked.check:
        with open(SAMPLE, 'rb') as file:
            is_same = file.read() == sample()
        print(f'{SAMPLE} {"is" if is_same else "differs from"} what is made here')
        return not is_same
    with open(SAMPLE, 'wb') as file:
        file.write(sample())
    return 0


if __name__ == '__main__':
    sys.exit(main())
