#!/usr/bin/env python3
"""Makes frames.pcap with scapy, reads it back, and writes what scapy's dissection says of each frame to frames.csv."""
import csv
from pathlib import Path

from scapy.layers.inet import (ICMP, IP, TCP, UDP, IPOption_Router_Alert, IPOption_RR, IPOption_Timestamp, fragment)
from scapy.layers.inet6 import (ICMPv6EchoRequest, IPv6, IPv6ExtHdrDestOpt, IPv6ExtHdrFragment, IPv6ExtHdrHopByHop,
                                IPv6ExtHdrRouting, PadN, RouterAlert)
from scapy.layers.ipsec import AH, ESP
from scapy.layers.l2 import GRE, Ether
from scapy.packet import Padding, Raw
from scapy.utils import PcapWriter, rdpcap

HERE = Path(__file__).parent
ETHER = Ether(src="02:00:00:00:00:01", dst="02:00:00:00:00:02")
SHORTEST = 60  # an Ethernet frame without its check sequence

V4 = {"src": "192.0.2.33", "dst": "198.51.100.7"}
V6 = {"src": "2001:db8:1:2:a:b:c:d", "dst": "2001:db8:ffff::80"}
SYN = TCP(sport=49152, dport=443, flags="S", seq=0x01020304, options=[("MSS", 1460), ("SAckOK", b"")])
DATA = TCP(sport=49152, dport=443, flags="PA", seq=0x01020305, ack=0x0A0B0C0D) / Raw(b"a line of text\r\n")
QUERY = UDP(sport=5353, dport=53) / Raw(bytes(range(32)))
LONG = Raw(bytes(i % 251 for i in range(100)))
HIGH = UDP(sport=65535, dport=32768) / Raw(b"high ports")


def pieces(name, packet):
    return [(f"{name}, piece {i}", piece) for i, piece in enumerate(fragment(packet, fragsize=48), 1)]


def padded(packet):
    frame = bytes(ETHER / packet)
    return ETHER / packet / Padding(b"\xa5" * (SHORTEST - len(frame)))


FRAMES = [
    ("IPv4 TCP SYN", IP(**V4, flags="DF") / SYN),
    ("IPv4 TCP data", IP(**V4, tos=0x10, id=7, ttl=55) / DATA),
    ("IPv4 TCP data, the other way", IP(src=V4["dst"], dst=V4["src"]) / TCP(sport=443, dport=49152, flags="A")),
    ("IPv4 UDP", IP(**V4) / QUERY),
    ("IPv4 UDP, high ports", IP(src="255.255.255.254", dst="10.0.0.0", ttl=1) / HIGH),
    ("IPv4 UDP, router alert", IP(**V4, options=[IPOption_Router_Alert()]) / QUERY),
    ("IPv4 TCP, record route", IP(**V4, options=[IPOption_RR(routers=["203.0.113.1", "203.0.113.2"])]) / DATA),
    ("IPv4 UDP, timestamp", IP(**V4, options=[IPOption_Timestamp(flg=1, timestamp=0x0102)]) / QUERY),
    ("IPv4 ICMP echo", IP(**V4) / ICMP(id=0x1234, seq=1) / Raw(b"echo")),
    ("IPv4 ESP", IP(**V4) / ESP(spi=0x11223344, seq=5, data=bytes(range(40)))),
    ("IPv4 AH", IP(**V4) / AH(nh=17, spi=0x55667788, seq=6, icv=bytes(12)) / QUERY),
    ("IPv4 GRE", IP(**V4) / GRE() / IP(src="10.1.1.1", dst="10.2.2.2") / QUERY),
    *pieces("IPv4 UDP fragments", IP(**V4, id=0x4242) / UDP(sport=5353, dport=53) / LONG),
    *pieces("IPv4 TCP fragments", IP(**V4, id=0x4343) / TCP(sport=49152, dport=443, flags="A") / LONG),
    ("IPv4 TCP SYN, padded", IP(**V4) / TCP(sport=49152, dport=443, flags="S")),
    ("IPv4 UDP, padded", IP(**V4) / UDP(sport=5353, dport=53)),
    ("IPv6 TCP SYN", IPv6(**V6, tc=0x20, fl=0xABCDE) / SYN),
    ("IPv6 TCP data", IPv6(**V6, hlim=3) / DATA),
    ("IPv6 UDP", IPv6(**V6) / QUERY),
    ("IPv6 ICMPv6 echo", IPv6(**V6) / ICMPv6EchoRequest(id=0x1234, seq=1, data=b"echo")),
    ("IPv6 ESP", IPv6(**V6) / ESP(spi=0x11223344, seq=5, data=bytes(range(40)))),
    ("IPv6 hop by hop", IPv6(**V6) / IPv6ExtHdrHopByHop(options=[RouterAlert(), PadN(optdata=b"")]) / QUERY),
    ("IPv6 destination options", IPv6(**V6) / IPv6ExtHdrDestOpt(options=[PadN(optdata=bytes(4))]) / DATA),
    ("IPv6 routing", IPv6(**V6) / IPv6ExtHdrRouting(addresses=["2001:db8::9"]) / DATA),
    ("IPv6 fragment header", IPv6(**V6) / IPv6ExtHdrFragment(id=0x01020304, m=1) / QUERY),
    ("IPv6 no next header", IPv6(**V6, nh=59)),
]


def fields(name, frame):
    """What scapy's layers say. Ports are those of a layer right behind the IP header, and no fragment has any."""
    ip = frame.getlayer(IP) or frame.getlayer(IPv6)
    fragmented = ip.version == 4 and (ip.flags.MF or ip.frag > 0)
    has_ports = isinstance(ip.payload, (TCP, UDP)) and not fragmented
    source, destination = (ip.get_field(end).i2m(ip, getattr(ip, end)).hex() for end in ("src", "dst"))
    protocol = ip.proto if ip.version == 4 else ip.nh
    ports = (ip.payload.sport, ip.payload.dport) if has_ports else (0, 0)
    return [name, source, destination, protocol, "yes" if fragmented else "no", *ports]


def main():
    with PcapWriter(str(HERE / "frames.pcap"), linktype=1, endianness="<") as writer:
        for second, (name, packet) in enumerate(FRAMES):
            frame = padded(packet) if name.endswith(", padded") else ETHER / packet
            frame.time = 1000000000 + second
            writer.write(frame)
    with open(HERE / "frames.csv", "w", newline="") as file:
        lines = csv.writer(file, delimiter=";", lineterminator="\n")
        lines.writerow(["frame", "source", "destination", "protocol", "fragment", "source port", "destination port"])
        for (name, _), frame in zip(FRAMES, rdpcap(str(HERE / "frames.pcap"))):
            lines.writerow(fields(name, frame))


main()
