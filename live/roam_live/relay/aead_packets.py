"""Encrypted packets over UDP between two ends that share a key. Nobody else can read, forge, change or replay them.

A packet begins with its counter, 8 bytes, whose highest bit is the direction. The rest is encrypted by ChaCha20-Poly1305 under the key and
that counter. A counter is used once. The process that makes a key gives it to one other process, and neither of the two is ever forked
afterwards.
"""
from __future__ import annotations

import errno
import importlib
import os
import socket
import struct
from collections.abc import Callable, Iterable, Sequence

TYPE_CHECKING = False
if TYPE_CHECKING:
    from typing import Any, Protocol

    class Cipher(Protocol):
        """Encrypts and decrypts under a key."""

        def encrypt(self, nonce: bytes, data: bytes, associated_data: bytes | None) -> bytes:
            """Return the encrypted data with its tag."""

        def decrypt(self, nonce: bytes, data: bytes, associated_data: bytes | None) -> bytes:
            """Return the decrypted data."""

    # The address of a packet, of either family; and its ancillary data: a level, a kind, and bytes.
    Place = tuple[Any, ...]
    Beside = tuple[int, int, bytes]

KEY_LENGTH = 32
COUNTER = struct.Struct(">Q")
TO_NEAR = 1 << 63
MOST_PACKETS = 1 << 62
TAG_LENGTH = 16

# The most bytes of a packet: with the headers of IP and UDP it fits every path that IPv6 permits.
LONGEST_PACKET = 1200
LONGEST_TEXT = LONGEST_PACKET - COUNTER.size - TAG_LENGTH

# Packets so far behind the newest count as repeated.
WINDOW = 4096

# The ports of far ends, the same as mosh's.
PORTS = range(60000, 61001)

# A Linux option without a name in earlier Pythons. It reports a packet's destination: the device, the address to answer from, and the one
# in the packet.
IP_PKTINFO = 8
TOLD_4 = struct.Struct("4x4s4x")


def cipher() -> Callable[[bytes], Cipher] | None:
    """Return the cipher of the library `cryptography`; None if it is absent or refuses."""
    try:
        kind: Callable[[bytes], Cipher] = importlib.import_module("cryptography.hazmat.primitives.ciphers.aead").ChaCha20Poly1305
        kind(bytes(KEY_LENGTH))
    except (KeyboardInterrupt, SystemExit):
        raise
    except BaseException:
        # A broken library may raise a Rust panic, which is no Exception.
        return None
    return kind


class AeadPackets:
    """Encrypts outgoing packets and decrypts incoming ones."""

    def __init__(self, cipher_of_key: Cipher, is_near: bool) -> None:
        self.cipher = cipher_of_key
        self.is_near = is_near
        self.way, self.other_way = (0, TO_NEAR) if is_near else (TO_NEAR, 0)
        self.counter = 0

    def is_spent(self) -> bool:
        """Return True if no counter is left."""
        return self.counter >= MOST_PACKETS - 1

    def encrypted(self, text: bytes) -> bytes:
        """Return the packet with these contents."""
        if self.is_spent():
            raise ValueError("no counter is left under this key")
        self.counter += 1
        begin = COUNTER.pack(self.way | self.counter)
        return begin + self.cipher.encrypt(bytes(4) + begin, text, None)

    def counter_of(self, packet: bytes) -> int:
        """Return the counter of a packet from the other end, from 1; 0 if it has the wrong form."""
        if not COUNTER.size + TAG_LENGTH <= len(packet) <= LONGEST_PACKET:
            return 0
        word: int = COUNTER.unpack_from(packet)[0]
        counter = word & ~TO_NEAR
        return counter if word & TO_NEAR == self.other_way and counter < MOST_PACKETS else 0

    def decrypted(self, packet: bytes) -> bytes | None:
        """Return the contents of a packet; None unless it is authentic."""
        try:
            return self.cipher.decrypt(bytes(4) + packet[: COUNTER.size], packet[COUNTER.size :], None)
        except Exception:
            # The library's InvalidTag; with any other error too, this is no packet.
            return None


class Window:
    """The received counters: duplicates are recognized, and acknowledged to the other end."""

    def __init__(self) -> None:
        # Bit k: the counter k below the newest was received. There is no counter 0.
        self.newest, self.bits = 0, 1

    def is_new(self, counter: int) -> bool:
        """Return True if a counter is new: not seen, and recent enough to know."""
        age = self.newest - counter
        return age < 0 or age < WINDOW and not self.bits >> age & 1

    def note(self, counter: int) -> None:
        """Record the counter of an authentic packet."""
        if counter > self.newest:
            self.bits = (self.bits << min(counter - self.newest, WINDOW) | 1) & (1 << WINDOW) - 1
            self.newest = counter
        else:
            self.bits |= 1 << self.newest - counter

    def mask(self, length: int) -> bytes:
        """Return a bit mask of the received counters below the newest, the nearest in the lowest bit of the first byte."""
        return (self.bits >> 1 & (1 << 8 * length) - 1).to_bytes(length, "little")


def udp_end(ports: Iterable[int] = (0,)) -> socket.socket | None:
    """Return a UDP socket at the first free port, for both families if the system has both; None if that fails."""
    one = socket_of(socket.AF_INET6) or socket_of(socket.AF_INET)
    if not one:
        return None
    for port in ports:
        try:
            one.bind(("", port))
            return one
        except OSError as fault:
            if fault.errno not in (errno.EADDRINUSE, errno.EACCES):
                break
    one.close()
    return None


def socket_of(family: int) -> socket.socket | None:
    """Return a non-blocking UDP socket of a family that reports packets' destinations; None if that fails."""
    try:
        one = socket.socket(family, socket.SOCK_DGRAM)
    except OSError:
        return None
    try:
        if family == socket.AF_INET6:
            one.setsockopt(socket.IPPROTO_IPV6, socket.IPV6_V6ONLY, 0)
            one.setsockopt(socket.IPPROTO_IPV6, socket.IPV6_RECVPKTINFO, 1)
        else:
            one.setsockopt(socket.IPPROTO_IP, IP_PKTINFO, 1)
        one.setblocking(False)
    except OSError:
        one.close()
        return None
    return one


def places_of(host: str, port: int, family: int) -> list[Place]:
    """Return the addresses of a host; nothing if unknown. A name lookup may take long."""
    try:
        found = socket.getaddrinfo(host, port, family, socket.SOCK_DGRAM, 0, socket.AI_V4MAPPED | socket.AI_ALL)
    except (OSError, UnicodeError):
        return []
    return [entry[4] for entry in found]


def came_to(told: Iterable[Beside]) -> Sequence[Beside]:
    """Return the local address that a packet came to, from its ancillary data, as the source of the answer."""
    for level, kind, text in told:
        if (level, kind) == (socket.IPPROTO_IPV6, socket.IPV6_PKTINFO) and len(text) == 20:
            return [(level, kind, text[:16] + bytes(4))]
        if (level, kind) == (socket.IPPROTO_IP, IP_PKTINFO) and len(text) == TOLD_4.size:
            return [(level, kind, TOLD_4.pack(TOLD_4.unpack(text)[0]))]
    return ()


def send(end: socket.socket, packet: bytes, place: Place, source: Sequence[Beside] = ()) -> None:
    """Send a packet, if the system accepts it: any may be lost."""
    for told in (source, ()) if source else ((),):
        try:
            end.sendmsg([packet], told, 0, place)
            return
        except OSError:
            # An earlier address of this end may be gone.
            continue


def random_key() -> bytes:
    """Return a random key."""
    return os.urandom(KEY_LENGTH)
