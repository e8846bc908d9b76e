""""""
from __future__ import annotations

from roam_live.common.named_fields import NamedFields


# The style of a row without a configured one: reversed.
ROW_STYLE = "0;7"


class Styled(NamedFields):
    """A text, and the SGR sequence of its style."""

    style: str
    text: str
