"""A capture file of one TCP connection (pcap, with the packets from their IPv4 header on: RFC
791, RFC 9293), made of the bytes that went over it: no capture by the system, and so no
privilege, is needed."""

import struct

# pcap's magic number for times in microseconds, its version, and the kind of packets that begin
# with an IP header
MAGIC, VERSION, RAW_IP = 0xA1B2C3D4, (2, 4), 101
MOST_OF_A_PACKET, SEGMENT = 65_535, 1_448
ADDRESS, TCP = bytes((127, 0, 0, 1)), 6
FIN, SYN, PUSH, ACKNOWLEDGE = 1, 2, 8, 16
FIRST_NUMBER = 1_000


def checksum(data):
    """The Internet's checksum (RFC 1071)."""
    data += bytes(len(data) % 2)
    total = sum(struct.unpack(f">{len(data) // 2}H", data))
    while total > 0xFFFF:
        total = (total & 0xFFFF) + (total >> 16)
    return 0xFFFF - total


class Capture:
    """Packets between a client's port and a server's; each side's next sequence number."""

    def __init__(self, client, server):
        self.ports, self.next = {"client": client, "server": server}, {
            "client": FIRST_NUMBER,
            "server": FIRST_NUMBER,
        }
        self.packets = []
        self.put("client", SYN)
        self.put("server", SYN | ACKNOWLEDGE)
        self.put("client", ACKNOWLEDGE)

    def put(self, sender, flags, data=b""):
        """Adds a packet of one side."""
        receiver = "server" if sender == "client" else "client"
        ports = struct.pack(">2H", self.ports[sender], self.ports[receiver])
        numbers = struct.pack(
            ">2I", self.next[sender], self.next[receiver] if flags & ACKNOWLEDGE else 0
        )
        behind = data + bytes(len(data) % 2)
        head = lambda told: ports + numbers + struct.pack(">2B3H", 5 << 4, flags, 65_535, told, 0)
        pseudo = ADDRESS * 2 + struct.pack(">2H", TCP, 20 + len(data))
        segment = head(checksum(pseudo + head(0) + behind)) + data
        self.packets.append(in_ip(segment, len(self.packets)))
        self.next[sender] += len(data) + (flags & (SYN | FIN) != 0)

    def send(self, sender, data):
        """Adds bytes of one side, in packets as a network has them, and answers the number of
        the last, from 1 on."""
        for at in range(0, len(data), SEGMENT):
            self.put(sender, PUSH | ACKNOWLEDGE, data[at : at + SEGMENT])
        return len(self.packets)

    def end(self):
        self.put("client", FIN | ACKNOWLEDGE)
        self.put("server", FIN | ACKNOWLEDGE)
        self.put("client", ACKNOWLEDGE)

    def write(self, path):
        with open(path, "wb") as file:
            file.write(struct.pack("<I2HiI2I", MAGIC, *VERSION, 0, 0, MOST_OF_A_PACKET, RAW_IP))
            for number, packet in enumerate(self.packets):
                # a packet a millisecond
                file.write(
                    struct.pack(
                        "<4I", number // 1000, number % 1000 * 1000, len(packet), len(packet)
                    )
                    + packet
                )


def in_ip(segment, number):
    """A packet of IPv4 that may not be cut."""
    head = lambda told: struct.pack(
        ">2B3H2BH", 0x45, 0, 20 + len(segment), number & 0xFFFF, 0x4000, 64, TCP, told
    )
    return head(checksum(head(0) + ADDRESS * 2)) + ADDRESS * 2 + segment
