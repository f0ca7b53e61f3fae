"""The profiles: settings by name, of which a run uses one, and where their tokens are.

The file is config.toml in the folder lifecrib of $XDG_CONFIG_HOME, else of ~/.config:

    default_profile = "work"

    [profile.work]
    issuer = "https://as.example"
    client_id = "aaa"

The token of the profile is kept in the folder lifecrib of $XDG_STATE_HOME, else of ~/.local/state.
"""
from __future__ import annotations

import os

from . import endings
from .caches import DEFAULT_NAME, is_shared
from .endings import BAD_SETTING, Stop, status_at, tell
from .settings import is_of_profiles

TYPE_CHECKING = False
if TYPE_CHECKING:  # typing takes a while to load
    import argparse
    from typing import Any, Optional

# The commands by which a profile may get its token, and those that use the file in which it is kept.
SIGNS_IN = ('login', 'device', 'password', 'token')
KEEPS = (*SIGNS_IN, 'refresh', 'status', 'logout', 'whoami', 'git-credential')


class Profile:
    """A profile: its name, its members, and the file that has it."""

    def __init__(self, name: str, members: dict[str, Any], path: str, is_default: bool) -> None:
        self.name, self.members, self.path = name, members, path
        self.is_default = is_default  # nothing named it but the file

    def token_file(self) -> str:
        return os.path.join(place('XDG_STATE_HOME', '.local/state'), self.name + '.token')


def place(variable: str, default: str) -> str:
    """The folder of this tool below $variable, or below the default in the user's home.

    A path that is not absolute counts for nothing (XDG Base Directory Specification 0.8).
    """
    path = os.environ.get(variable, '')
    if not os.path.isabs(path):
        path = os.path.join(os.path.expanduser('~'), default)
    return os.path.join(path, 'lifecrib')


def own_file() -> str:
    return os.path.join(place('XDG_CONFIG_HOME', '.config'), 'config.toml')


def chosen(given: argparse.Namespace) -> Optional[Profile]:
    """The profile of a run: --profile, else OAUTH2_PROFILE, else the default; None without one."""
    named = given.config or os.environ.get('OAUTH2_CONFIG')
    name = given.profile or os.environ.get('OAUTH2_PROFILE')
    if given.no_profile:
        return None
    if named and is_of_profiles(named):
        return profile_of(named, name, is_needed=True)
    if given.config and given.profile:
        raise Stop('--profile names one of a .toml file, and --config is %s' % named, BAD_SETTING)
    if named and not given.profile:
        return None
    if not name and not os.path.exists(own_file()):
        return None
    return profile_of(own_file(), name)


def profile_of(path: str, name: Optional[str], is_needed: bool = False) -> Optional[Profile]:
    """The profile of this name in a file, or its default one."""
    from . import profile_files
    default, found = profile_files.profiles_in(path)
    is_default, name = not name, name or default
    if name is None and is_needed:
        raise Stop('%s has no default_profile: give --profile' % path, BAD_SETTING)
    if name is None:
        return None
    if name not in found:
        raise Stop('%s has no profile "%s": it has %s' % (path, name, ', '.join(found) or 'none'),
                   BAD_SETTING)
    return Profile(name, found[name], path, is_default)


def apply(given: argparse.Namespace) -> None:
    """Chooses the profile of a run, and gives it what the profile has in the place of flags."""
    profile = given.of_profile = chosen(given)
    given.keeps_for, given.cache_name, cache = None, profile.name if profile else DEFAULT_NAME, given.cache
    if is_shared(cache):
        given.keeps_for, cache = profile, shown_place(given)
    given.place = named_again(given, profile, cache)
    if not profile:
        return
    members = profile.members
    if given.command == 'login':
        given.openid = given.openid or members.get('openid', False)
        given.push = given.push or members.get('push', False)
        if given.listen is None:
            given.listen = members.get('listen')
    if given.command in KEEPS and not given.cache:
        given.cache, given.keeps_for = members.get('cache') or profile.token_file(), profile


def named_again(given: argparse.Namespace, profile: Optional[Profile], cache: Optional[str]) -> str:
    """The flags by which another command line uses the same token."""
    found = (('--config', given.config), ('--profile', profile and profile.name), ('--cache', cache))
    return ' '.join('%s %s' % it for it in found if it[1])


def shown_place(given: argparse.Namespace) -> str:
    """A shared --cache without its password. Warns of a password that is no secret there."""
    from . import shared_places
    place = shared_places.place_in(given.cache)
    if place.password:
        tell('all users of this machine can see its processes with their flags, so with the password in --cache: %s '
             'has it instead'
             % shared_places.VARIABLE)
    return place.shown(place.name or given.cache_name)


def signs_in(given: argparse.Namespace) -> str:
    """The command line by which a user gets the token that is missing."""
    members = given.keeps_for.members if given.keeps_for else {}
    return '%s %s %s' % (endings.command, members.get('sign_in', 'login'), given.place)


def make_folder(path: str) -> None:
    """Makes the folder of a token's file. Stops where others could read or change what is there."""
    folder = os.path.dirname(path)
    try:
        os.makedirs(folder, mode=0o700, exist_ok=True)
        found = os.stat(folder)
    except OSError as error:
        raise Stop('the folder %s can not be made: %s' % (folder, error.strerror), status_at(error))
    if found.st_uid != os.geteuid():
        raise Stop('the folder %s belongs to another user' % folder, BAD_SETTING)
    if found.st_mode & 0o077:
        raise Stop('others can look into %s or change it: chmod 700 %s' % (folder, folder), BAD_SETTING)
