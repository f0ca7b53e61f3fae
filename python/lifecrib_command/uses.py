"""The commands that are about a token that is kept, and get none from a server but to renew it: `status`, `whoami`,
`git-credential`."""
from __future__ import annotations

import sys
import time
from typing import TYPE_CHECKING

from . import answers, endings, git_credential, token_status
from .endings import SIGN_IN, Stop
from .kept_tokens import used
from .profiles import signs_in
from .settings import NEEDED, check_complete

if TYPE_CHECKING:
    import argparse

    from .caches import Cache
    from .session import Params, Session


def show_status(given: argparse.Namespace, cache: Cache) -> int:
    """Writes what is kept, without a secret: the exit status, which is that of a need to sign in where no token can be
    had."""
    kept, now = cache.read(), int(time.time())
    name = given.keeps_for.name if given.keeps_for else None
    if not kept:
        raise Stop('there is no token in %s: sign in by %s' % (cache.name, signs_in(given)), SIGN_IN)
    if given.output == 'json':
        answers.put(token_status.in_json(kept, name, cache, now) + '\n')
    else:
        lines = token_status.in_lines(kept, name, cache, now, given.margin)
        answers.put(''.join(endings.printable(it) + '\n' for it in lines))
    return SIGN_IN if token_status.has_ended(kept, now) and not token_status.can_be_renewed(kept, cache) else 0


def whoami(session: Session, params: Params) -> int:
    """Asks the UserInfo endpoint about the user of the kept token, and writes the answer: the exit status."""
    given, kept = session.given, session.cache.read()
    if kept and not kept['user']:
        raise Stop('%s does not say who has signed in, so no answer could be compared with it: sign in by %s login '
                   '--openid %s'
                   % (session.cache.name, endings.command, given.place), SIGN_IN)
    if kept:
        check_complete(given, session.settings)
        session.find(NEEDED['whoami'])
    done = used(session, params)
    if done or not session.user:
        return done
    from . import userinfo
    url, token = session.settings['userinfo_url'], answers.token_in(session.text)
    answers.put(userinfo.asked(url, token, given.timeout, session.user['sub']) + '\n')
    return 0


def git_credential_of(session: Session, params: Params) -> int:
    """Gives git the kept token as a password, or forgets one that a server has refused: the exit status."""
    given, request = session.given, git_credential.read(sys.stdin.buffer)
    if not git_credential.is_for(request, given.host):
        return 0  # git goes on to other helpers, and asks the user
    if given.operation == 'erase':
        session.cache.end(request.get('password', ''))
    if given.operation != 'get':
        return 0
    done = used(session, params)
    if not done:
        token = answers.token_in(session.text)
        answers.put(git_credential.answer(request, given.user, token, session.ends))
    return done
