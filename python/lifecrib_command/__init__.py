"""Tokens of OAuth 2.0 from the command line."""
from __future__ import annotations

TYPE_CHECKING = False
if TYPE_CHECKING:
    from typing import Optional

tools: Optional[str] = None  # the folder of the tools of a checkout, whose programs are run; a package has its own
