"""One run of a command: its flags, its settings, and what comes of the scripts that it runs."""
from __future__ import annotations

import functools

from . import wire_log
from .endings import Stop
from .settings import ENDPOINTS, NEEDED, OF_CACHE, OF_TLS, URLS, asked, flag_of

TYPE_CHECKING = False
if TYPE_CHECKING:  # typing takes a while to load
    import argparse
    from typing import Any, Callable, Iterable, Mapping, Optional

    from lifecrib import Run

    from .caches import Cache
    from .conversation import Outcome
    from .renewal import Renewal

    Params = dict[str, Any]
    Settings = dict[str, Any]


class Session:
    """One run of a command. The library and what else a request needs is loaded where a script is run."""

    def __init__(self, given: argparse.Namespace, settings: Settings, cache: Optional[Cache], renewal: Renewal) -> None:
        self.given, self.settings, self.renewal = given, settings, renewal
        self.kept_in = cache
        self.metadata: Optional[Mapping[str, Any]] = None
        self.user: Optional[dict[str, str]] = None  # who has signed in, by an ID token that was checked
        self.text = ''  # the answer that a command uses itself
        self.ends: Optional[int] = None  # when the token of that ends

    @property
    def cache(self) -> Cache:
        """The cache of a command that has one."""
        assert self.kept_in
        return self.kept_in

    @functools.cached_property
    def secret(self) -> Optional[str]:
        found: Optional[str] = self.settings['client_secret']
        if self.given.ask_secret:
            found = asked(None, "The client's secret")
        if found:
            wire_log.secrets.add_login(self.settings['client_id'] or '', found)
        return found

    def take_certificates(self) -> None:
        """Takes the certificates of the settings. Stops at a file that can't be used."""
        paths = [self.settings[name] for name in OF_TLS]
        if any(paths):
            from . import tls
            tls.use(*paths)

    def find(self, names: Iterable[str]) -> None:
        """Discovers those of the endpoints that no setting names; the metadata are asked for once."""
        from . import discovery
        for name in names:
            if name in ENDPOINTS and not self.settings[name]:
                self.metadata = self.metadata or discovery.metadata_of(self.settings, self.given.timeout)
                self.settings[name] = discovery.endpoint(self.metadata, name)

    def client(self, command: str) -> Params:
        """The client of a script with this command, with the URLs that it needs."""
        from . import servers
        needed = NEEDED['refresh' if command in ('refresh', 'client_credentials') else self.given.command]
        if command == 'push':
            needed += ('push_url',)
        self.find(needed)
        found = {'id': self.settings['client_id'], 'secret': self.secret, 'auth': self.settings['auth']}
        found.update((name, self.settings[name]) for name in needed if name in URLS)
        found['adapters'] = servers.adapters_of(self.settings)
        return {name: value for name, value in found.items() if value}

    def where(self, url: Optional[str]) -> str:
        """Which setting has a URL, or that the cache keeps it, in brackets."""
        name = next((it for it in ENDPOINTS if url and self.settings[it] == url), None)
        if not name:
            return ''
        if name in self.settings[OF_CACHE]:
            return ' (kept in %s)' % self.cache.name
        is_discovered = self.metadata and self.metadata.get(ENDPOINTS[name]) == url
        return ' (%s)' % ('--issuer' if is_discovered else flag_of(name))

    def fault_of(self, outcome: Outcome) -> tuple[str, int]:
        """Why there is no answer, and the exit status."""
        from . import faults
        has_secret = bool(self.secret or self.settings['client_assertion_file'])
        return faults.of(outcome, self.where(outcome.url), has_secret=has_secret)

    def stop_of(self, outcome: Outcome) -> Stop:
        return Stop(*self.fault_of(outcome))

    def prepare(self, command: Optional[str] = None) -> None:
        """Looks for the library and the endpoints, and asks for the client's secret if that has to be: before any other
        secret, and before a file is locked."""
        from . import programs
        programs.library()
        self.client(command or self.given.command)
        self.assertion(command or self.given.command)

    def assertion(self, command: str) -> Params:
        """The parameter with the client's assertion, as its file has it now."""
        from . import grants
        return grants.of_client(self.settings['client_assertion_file'], command)

    def script(self, command: str, params: Params) -> Params:
        return {'client': self.client(command), 'command': command, 'params': {**params, **self.assertion(command)}}

    def asks(self, command: str, params: Params, sleep: Optional[Callable[[float], None]] = None) -> Outcome:
        """What comes of a command of the library that makes requests."""
        from . import conversation
        renewal = self.renewal if command == 'refresh' else None
        script, fresh = self.script(command, params), functools.partial(self.assertion, command)
        return conversation.answered(script, self.given.timeout, renewal, sleep or conversation.sleep, fresh)

    def ran(self, command: str, params: Params, **more: Any) -> Run:
        """The run of a command that makes no request."""
        from . import conversation
        return conversation.ran({**self.script(command, params), **more})


