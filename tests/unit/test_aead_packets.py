"""Encrypted packets: decryption, new counters, and refused sockets."""
import errno
import random
import socket
import types
import unittest
from unittest import mock

from aids import Case
from roam_live.relay import aead_packets
from roam_live.relay.aead_packets import (LONGEST_PACKET, LONGEST_TEXT, MOST_PACKETS, PORTS, TO_NEAR, WINDOW, AeadPackets, Window, came_to,
                                          cipher,
                                          places_of, udp_end)


class Foolish:
    """A cipher in place of the library's that adds a tag and hides nothing, so that tests see the nonce."""

    def __init__(self, key):
        self.key = key

    def encrypt(self, nonce, data, more):
        """Return the text, and a tag of nonce and length."""
        return data + self.tag(nonce, data)

    def tag(self, nonce, data):
        """Return a tag that nobody forges here."""
        return (nonce + len(data).to_bytes(4, "big"))[-16:]

    def decrypt(self, nonce, data, more):
        """Return the text."""
        if self.tag(nonce, data[:-16]) != data[-16:]:
            raise ValueError("no such tag")
        return data[:-16]


class Encrypts(Case):
    """Each end decrypts only the other one's packets."""

    def setUp(self):
        kind = cipher()
        if not kind:
            self.skipTest("the library cryptography isn't here")
        self.near, self.far = AeadPackets(kind(b"k" * 32), True), AeadPackets(kind(b"k" * 32), False)
        self.other = AeadPackets(kind(b"j" * 32), True)

    def test_both_ways(self):
        """Counters go from 1 up, the highest bit is the direction, and a packet is 24 bytes longer than its contents."""
        packets = [self.near.encrypted(b"one"), self.near.encrypted(b""), self.near.encrypted(bytes(LONGEST_TEXT))]
        self.assertEqual([packet[:8] for packet in packets], [number.to_bytes(8, "big") for number in (1, 2, 3)])
        self.assertEqual([len(packet) for packet in packets], [27, 24, LONGEST_PACKET])
        self.assertEqual([self.far.counter_of(packet) for packet in packets], [1, 2, 3])
        self.assertEqual([self.far.decrypted(packet) for packet in packets], [b"one", b"", bytes(LONGEST_TEXT)])
        back = self.far.encrypted(b"back")
        self.assertEqual(back[:8], (TO_NEAR | 1).to_bytes(8, "big"))
        self.assertEqual((self.near.counter_of(back), self.near.decrypted(back)), (1, b"back"))

    def test_known_bytes(self):
        """The nonce is four zero bytes and the packet's first eight, and no more data is encrypted with it."""
        self.assertEqual(self.near.encrypted(b"text"), bytes(7) + b"\1" + cipher()(b"k" * 32).encrypt(bytes(11) + b"\1", b"text", None))

    def test_not_its_own(self):
        """An end accepts no packet that goes its own way, is too short or too long, or has no counter."""
        packet = self.near.encrypted(b"text")
        self.assertEqual(self.near.counter_of(packet), 0)
        counters = (0).to_bytes(8, "big"), MOST_PACKETS.to_bytes(8, "big")
        for wrong in (b"", packet[:23], packet + bytes(LONGEST_PACKET), *(counter + packet[8:] for counter in counters)):
            self.assertEqual(self.far.counter_of(wrong), 0, wrong)

    def test_forged(self):
        """A packet with any changed bit, cut anywhere, under another key, or with another counter is not decrypted."""
        packet = self.near.encrypted(b"some text of 25 bytes ...")
        for place in range(len(packet) * 8):
            forged = bytearray(packet)
            forged[place // 8] ^= 1 << place % 8
            self.assertIsNone(self.far.decrypted(bytes(forged)), place)
        for length in range(len(packet)):
            self.assertIsNone(self.far.decrypted(packet[:length]), length)
        self.assertIsNone(self.far.decrypted(self.other.encrypted(b"some text")))
        self.assertIsNone(self.far.decrypted(self.near.encrypted(b"x")[:8] + packet[8:]))
        self.assertEqual(self.far.decrypted(packet), b"some text of 25 bytes ...")


class Counters(unittest.TestCase):
    """The last counter, and the acknowledgement of received ones."""

    def test_end(self):
        """The last counter is used once, and there is none after it."""
        aead = AeadPackets(Foolish(b""), True)
        aead.counter = MOST_PACKETS - 2
        self.assertFalse(aead.is_spent())
        self.assertEqual(AeadPackets(Foolish(b""), False).counter_of(aead.encrypted(b"")), MOST_PACKETS - 1)
        self.assertTrue(aead.is_spent())
        with self.assertRaises(ValueError):
            aead.encrypted(b"")

    def test_window(self):
        """Each counter is new once, in any order; one that is too old is never new."""
        window, chance, seen = Window(), random.Random(4), set()
        self.assertFalse(window.is_new(0))
        for _ in range(20_000):
            counter = max(1, window.newest + chance.choice((1, 2, 9, 300, -1, -2, -50, -WINDOW + 1, -WINDOW, -WINDOW - 1, WINDOW + 5)))
            wanted = counter not in seen and counter > window.newest - WINDOW
            self.assertEqual(window.is_new(counter), wanted, counter)
            if wanted:
                window.note(counter)
                seen.add(counter)
            self.assertLess(window.bits, 1 << WINDOW)

    def test_mask(self):
        """Bit k of byte j represents the counter 1 + 8 j + k below the newest."""
        window = Window()
        for counter in (1, 2, 4, 12):
            window.note(counter)
        self.assertEqual((window.mask(0), window.mask(2)), (b"", bytes([1 << 7, 1 << 1 | 1 << 2 | 1 << 3])))
        self.assertEqual(window.mask(1), bytes([1 << 7]))


class Sockets(Case):
    """UDP sockets, refusals of the system, and the addresses of packets."""

    def test_ports(self):
        """The first free port is used; if all are taken there is no socket."""
        first = udp_end()
        self.addCleanup(first.close)
        taken = first.getsockname()[1]
        self.assertIsNone(udp_end((taken, taken)))
        second = udp_end((taken, 0))
        self.addCleanup(second.close)
        self.assertNotEqual(second.getsockname()[1], taken)
        self.assertFalse(second.getblocking())
        self.assertEqual((PORTS[0], PORTS[-1]), (60000, 61000))

    def test_refused(self):
        """Without IPv6 it uses only IPv4; without a descriptor, or if bind fails, there is no socket."""
        real = socket.socket

        def only_four(family, *more):
            if family != socket.AF_INET:
                raise OSError(errno.EAFNOSUPPORT, "no")
            return real(family, *more)

        with mock.patch("socket.socket", side_effect=only_four):
            one = udp_end()
        self.addCleanup(one.close)
        self.assertEqual(one.family, socket.AF_INET)
        with mock.patch("socket.socket", side_effect=OSError(errno.EMFILE, "no")):
            self.assertIsNone(udp_end())
        refusing = mock.Mock(bind=mock.Mock(side_effect=OSError(errno.EPERM, "no")))
        with mock.patch("socket.socket", return_value=refusing):
            self.assertIsNone(udp_end(PORTS))
        self.assertEqual((refusing.bind.call_count, refusing.close.call_count), (1, 1))
        odd = mock.Mock(setsockopt=mock.Mock(side_effect=OSError(errno.ENOPROTOOPT, "no")))
        with mock.patch("socket.socket", return_value=odd):
            self.assertIsNone(udp_end())
        self.assertEqual(odd.close.call_count, 2)

    def test_source(self):
        """An answer is sent from the address that the packet came to, in both families."""
        for family, own, address in ((socket.AF_INET6, "::ffff:127.0.0.9", None), (socket.AF_INET, "127.0.0.9", None)):
            with self.subTest(family=family):
                end = aead_packets.socket_of(family)
                self.addCleanup(end.close)
                end.bind(("", 0))
                other = socket.socket(socket.AF_INET, socket.SOCK_DGRAM)
                self.addCleanup(other.close)
                other.settimeout(5)
                other.bind(("127.0.0.1", 0))
                other.sendto(b"x", ("127.0.0.9", end.getsockname()[1]))
                end.settimeout(5)
                _, told, _, place = end.recvmsg(10, 64)
                source = came_to(told)
                self.assertEqual(len(source), 1)
                aead_packets.send(end, b"answer", place, source)
                self.assertEqual(other.recvfrom(10)[1][0], "127.0.0.9")
        self.assertEqual(came_to([]), ())
        self.assertEqual(came_to([(socket.IPPROTO_IPV6, socket.IPV6_PKTINFO, b"short"), (0, 8, b"short"), (1, 1, b"")]), ())

    def test_send(self):
        """If its source address is gone a packet uses another; a packet that the system refuses is lost."""
        end = mock.Mock(sendmsg=mock.Mock(side_effect=OSError(errno.EADDRNOTAVAIL, "no")))
        aead_packets.send(end, b"x", ("::1", 1, 0, 0), [(41, 50, bytes(20))])
        self.assertEqual([call.args[1] for call in end.sendmsg.call_args_list], [[(41, 50, bytes(20))], ()])

    def test_places(self):
        """It finds addresses of both families; an invalid name has none."""
        self.assertEqual(places_of("127.0.0.1", 60000, socket.AF_INET), [("127.0.0.1", 60000)])
        self.assertEqual(places_of("127.0.0.1", 60000, socket.AF_INET6)[0][0], "::ffff:127.0.0.1")
        for host in ("." * 300, "a" * 70 + ".example", "x\udc80y"):
            self.assertEqual(places_of(host, 60000, socket.AF_INET), [])
        with mock.patch("socket.getaddrinfo", side_effect=socket.gaierror(1, "no")):
            self.assertEqual(places_of("somewhere", 60000, socket.AF_INET), [])


class Libraries(Case):
    """A missing or broken library."""

    def test_lacking(self):
        """Then nothing is encrypted, and nothing fails."""

        class Panic(BaseException):
            """An exception of Rust."""

        class Refusing:
            """A cipher that is forbidden here."""

            def __init__(self, key):
                raise ValueError("not allowed")

        for fault in (ImportError("no"), Panic("no"), OSError("no")):
            with self.subTest(fault=fault), mock.patch("importlib.import_module", side_effect=fault):
                self.assertIsNone(cipher())
        for module in (types.SimpleNamespace(), types.SimpleNamespace(ChaCha20Poly1305=Refusing)):
            with mock.patch("importlib.import_module", return_value=module):
                self.assertIsNone(cipher())
        with mock.patch("importlib.import_module", side_effect=KeyboardInterrupt), self.assertRaises(KeyboardInterrupt):
            cipher()


if __name__ == "__main__":
    unittest.main()
