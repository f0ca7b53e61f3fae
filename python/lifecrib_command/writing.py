"""How the outcome of a command is written: its answer to standard output, or its fault to standard error."""
from __future__ import annotations

from . import answers
from .endings import say, tell
from .flags import GIVES_NO_TOKEN

TYPE_CHECKING = False
if TYPE_CHECKING:  # typing takes a while to load
    from typing import Optional

    from .conversation import Outcome
    from .session import Session

USES_TOKEN = ('whoami', 'git-credential')  # the commands that use a kept token themselves, so that it is not written


def show(session: Session, outcome: Outcome) -> int:
    """Writes an answer to standard output, or a fault to standard error: the exit status."""
    if outcome.fault:
        said, status = session.fault_of(outcome)
        tell(said)
        return status
    text, ends = whole(outcome), None
    if session.given.command not in GIVES_NO_TOKEN:
        ends = answers.end_in(text, outcome.asked_at)
    write(session, text, ends)
    session.renewal.kept()
    return 0


def whole(outcome: Outcome) -> str:
    """The text of an answer, with the reply's other members."""
    return answers.with_others(outcome.answer, (outcome.reply or {}).get('body', ''))


def write(session: Session, text: str, ends: Optional[int]) -> None:
    """Writes an answer, whose token ends then; for a command that uses the token itself, keeps it for that."""
    given = session.given
    if given.command in USES_TOKEN:
        session.text, session.ends = text, ends
        return
    if session.user and given.openid:
        say('signed in as "%s" at %s' % (session.user['sub'], session.user['iss']))
    if given.command in GIVES_NO_TOKEN:
        answers.write(text, 'json', False, ends)
        return
    text = answers.with_end(text, ends) if given.expires else text
    answers.write(text, given.output, not given.show, ends)
