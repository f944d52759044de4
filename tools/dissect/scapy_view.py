"""What scapy makes of delivered IP packets. It needs a Python that has scapy, so it is a program of its own.

It reads a packet in each line, as hexadecimal digits, and writes a line for each: `same` if scapy, which computes the
header checksum and all lengths anew, writes the header as it was, and else the header that it writes; then the SN, the
timestamp and the SSRC that it reads, and `right`, `wrong` or `none` for the UDP checksum.
"""

import logging
import sys

logging.getLogger("scapy").setLevel(logging.CRITICAL)

from scapy.layers.inet import IP, UDP  # noqa: E402
from scapy.layers.rtp import RTP  # noqa: E402

HEADER = 40


def checksum_verdict(octets: bytes) -> str:
    """Whether the UDP checksum is the one that scapy computes."""
    packet = IP(octets)
    carried = packet[UDP].chksum
    if carried == 0:
        return "none"
    del packet[UDP].chksum
    return "right" if IP(bytes(packet))[UDP].chksum == carried else "wrong"


def said(octets: bytes) -> str:
    """The line of a packet. The header is written anew from its fields."""
    packet = IP(octets)
    udp = packet[UDP]
    rtp = RTP(bytes(udp.payload))
    again = IP(tos=packet.tos, id=packet.id, flags=packet.flags, ttl=packet.ttl, src=packet.src, dst=packet.dst)
    again /= UDP(sport=udp.sport, dport=udp.dport, chksum=udp.chksum)
    fields = {name: getattr(rtp, name) for name in "padding extension marker payload_type sequence timestamp".split()}
    again /= RTP(sourcesync=rtp.sourcesync, **fields)
    head = bytes(again / octets[HEADER:])[:HEADER]
    same = "same" if head == octets[:HEADER] else head.hex()
    return f"{same} {rtp.sequence} {rtp.timestamp} {rtp.sourcesync} {checksum_verdict(octets)}"


for line in sys.stdin:
    print(said(bytes.fromhex(line)))
