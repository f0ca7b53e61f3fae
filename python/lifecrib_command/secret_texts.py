"""The secrets of a run, and how they are masked in a text, in whatever way they are written there."""
from __future__ import annotations

TYPE_CHECKING = False
if TYPE_CHECKING:  # typing takes a while to load
    from typing import Callable, Optional

MASK = '***'


class Secrets:
    """The texts that are not to be shown."""

    def __init__(self) -> None:
        self.texts: set[str] = set()

    def add(self, *texts: Optional[str]) -> None:
        self.texts.update(it for it in texts if it)

    def add_login(self, name: str, secret: str) -> None:
        """A secret, and the values of an Authorization header that have it (RFC 6749, 2.3.1)."""
        import base64
        import urllib.parse
        self.add(secret)
        ways: list[Callable[[str], str]] = [str, urllib.parse.quote_plus, lambda it: urllib.parse.quote(it, safe='')]
        for quote in ways:
            both = '%s:%s' % (quote(name), quote(secret))
            self.add(base64.b64encode(both.encode('utf-8', 'surrogatepass')).decode())

    def masked(self, text: str, most: Optional[int] = None) -> str:
        """The text with a mask in the place of each secret; up to a place, if one is given."""
        from .text_views import LONGEST
        end_of_all = len(text) if most is None else min(most, len(text))
        longest = max(map(len, self.texts), default=0)
        found, at = [], 0
        for begin, end in sorted(self.places(text[:end_of_all + LONGEST * longest])):
            if at <= begin < end_of_all:
                found += [text[at:begin], MASK]
            at = max(at, end)
        return ''.join(found) + text[at:end_of_all]

    def places(self, text: str) -> set[tuple[int, int]]:
        """Where a secret is in a text; a space may be a plus there."""
        from .text_views import LEVELS, bytes_of, plain, views
        found: set[tuple[int, int]] = set()
        for view in views(plain(text), LEVELS):
            for secret in self.texts:
                for form in {bytes_of(secret), bytes_of(secret).replace(' ', '+')}:
                    found.update(view.places(form))
        return found
