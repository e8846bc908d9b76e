"""The lines about upgrades at the socket `host`: a request comes with an open descriptor of a folder of tools."""
from __future__ import annotations

# The request, the answers, and the question about the running build with its answer.
UPGRADE, BEGINS, REFUSED, BUILD = "upgrade", "begins", "not upgraded", "build"

# The most characters of the reason for a refusal.
LONGEST_REASON = 160
