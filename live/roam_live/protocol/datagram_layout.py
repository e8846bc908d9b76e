"""The places of numbers in datagrams and instructions, as docs/PROTOCOL.md defines them and `roam_wire` reads them.

No other module has such a place. A unit test compares these with the tables of the page.
"""
from __future__ import annotations

import struct

# A datagram begins with these letters. A header and a fragment of an instruction follow each other.
LETTERS = b"RM"
HEADER_BYTES = 42
FRAGMENT_BYTES = 1200
SHORTEST, LONGEST = HEADER_BYTES + 1, HEADER_BYTES + FRAGMENT_BYTES

# The place of a header's kind, and the kinds: to a client, and to the server from a read-write or a read-only client.
KIND_PLACE = 3
TO_CLIENT, READ_WRITE, READ_ONLY = 1, 2, 3

# A header's version, kind, session and client instance.
ADDRESS_LAYOUT = struct.Struct(">2xBBQQ")

# A header's id of the instruction; the index of the fragment, from 0; and that index with the count of fragments.
INSTRUCTION_PLACES = slice(28, 36)
INDEX_PLACES = slice(36, 38)
FRAGMENT_LAYOUT = struct.Struct(">36xHH")

# An instruction to the server: the count of its acts.
ACT_COUNT_PLACES = slice(16, 18)

# An instruction to a client: its numbers, and the size and cursor of its diff. Then the bytes of an instruction whose diff has no cells:
# in version 2, which is the longer one, the counts of styles and of runs follow, in three and four bytes.
NUMBERS_END = 32
CURSOR_END = NUMBERS_END + 9
BARE_BYTES = CURSOR_END + 3 + 4
