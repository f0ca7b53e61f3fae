"""The servers that the command knows by name, with their endpoints and with what makes their replies those of the
standards."""
from __future__ import annotations

from .endings import BAD_SETTING, Stop

TYPE_CHECKING = False
if TYPE_CHECKING:  # typing takes a while to load
    from typing import Any, Mapping

# Of each server: its endpoints, and the adapters of docs/SCRIPT.md through which its replies go. Both are from its
# public documents.
SERVERS: dict[str, tuple[dict[str, str], tuple[str, ...]]] = {
    'bitbucket': ({'auth_url': 'https://bitbucket.org/site/oauth2/authorize',
                   'token_url': 'https://bitbucket.org/site/oauth2/access_token'},
                  ()),
    'facebook': ({'auth_url': 'https://www.facebook.com/dialog/oauth',
                  'token_url': 'https://graph.facebook.com/oauth/access_token'},
                 ('form_bodies', 'other_media_types')),
    'github': ({'auth_url': 'https://github.com/login/oauth/authorize',
                'token_url': 'https://github.com/login/oauth/access_token',
                'device_url': 'https://github.com/login/device/code'}, ('errors_at_status_200', 'commas_in_scopes')),
    'gitlab': ({'auth_url': 'https://gitlab.com/oauth/authorize', 'token_url': 'https://gitlab.com/oauth/token',
                'device_url': 'https://gitlab.com/oauth/authorize_device',
                'introspection_url': 'https://gitlab.com/oauth/introspect',
                'revocation_url': 'https://gitlab.com/oauth/revoke',
                'userinfo_url': 'https://gitlab.com/oauth/userinfo'}, ()),
    'google': ({'auth_url': 'https://accounts.google.com/o/oauth2/v2/auth',
                'token_url': 'https://oauth2.googleapis.com/token',
                'device_url': 'https://oauth2.googleapis.com/device/code',
                'revocation_url': 'https://oauth2.googleapis.com/revoke',
                'userinfo_url': 'https://openidconnect.googleapis.com/v1/userinfo'}, ()),
    'linkedin': ({'auth_url': 'https://www.linkedin.com/oauth/v2/authorization',
                  'token_url': 'https://www.linkedin.com/oauth/v2/accessToken'}, ('commas_in_scopes',)),
    'microsoft': ({'auth_url': 'https://login.microsoftonline.com/common/oauth2/v2.0/authorize',
                   'token_url': 'https://login.microsoftonline.com/common/oauth2/v2.0/token',
                   'device_url': 'https://login.microsoftonline.com/common/oauth2/v2.0/devicecode',
                   'userinfo_url': 'https://graph.microsoft.com/oidc/userinfo'}, ('numbers_as_texts',)),
}


def fill(settings: dict[str, Any]) -> None:
    """Sets those endpoints of the named server that no setting names. Stops at a name that is unknown."""
    name = settings['server']
    if not name:
        return
    if name not in SERVERS:
        raise Stop('--server is "%s": it has to be one of %s' % (name, ', '.join(SERVERS)), BAD_SETTING)
    for setting, url in SERVERS[name][0].items():
        settings[setting] = settings[setting] or url


def adapters_of(settings: Mapping[str, Any]) -> list[str]:
    """The names of the adapters through which the replies of the named server go."""
    return list(SERVERS[settings['server']][1]) if settings['server'] else []
