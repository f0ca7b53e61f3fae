"""The flags of the command, and what its help says of each part of it."""
from __future__ import annotations

import argparse
import functools
import math

from . import answers, endings, grants, profiles
from .endings import BAD_SETTING, Stop
from .settings import FILES, LEEWAY, NO_FLAGS, TEXTS, WITHOUT_CLIENT, flag_of, takes

TYPE_CHECKING = False
if TYPE_CHECKING:  # typing takes a while to load
    from typing import Any, Callable, Iterable, Mapping, NoReturn, Sequence

WIDTH = 78  # of a help that is not shown
# The commands that are about a token that is kept, so that its place has to be known.
OF_KEPT = ('status', 'whoami', 'logout', 'git-credential')
GIVES_NO_TOKEN = ('introspect', 'revoke', 'verify-token', *OF_KEPT)
KEEPS_NONE = ('exchange', 'assertion')  # the commands that give a token and keep none
# The one place to which a further parameter goes, of a command that has several.
EXTRA_GOES = {'login': ', of the authorization request alone',
              'device': ', of the first request alone, which asks for the code'}
MORE = 'tools/oauth2 --help says where settings and secrets come from, and what the exit status means.'
STDIN = '%s, or a line of standard input that a terminal does not show.'
# Each command: what it does, more of that, and an example.
ABOUT = {
    'login': ('sends the user to the authorization URL and exchanges the code that comes back',
              'Prints the URL. Then it reads the address that the browser is sent back to, as a line of standard '
              'input that a terminal\n'
              'does not show; or with --listen it waits for the browser on this machine, at the path of --redirect '
              '(RFC 8252, 7.3).\n'
              'It goes on only if the program reads a code from that address: its state has to be the one that was '
              'sent, and with\n'
              '--issuer it has to name that issuer. If metadata were asked for and do not promise the name, it may be '
              'left out.\n'
              'With --openid the server has to send an ID token, which the program checks.\n'
              'With --push the program sends the parameters to the server first, so that the URL does not have them '
              '(RFC 9126).',
              'tools/oauth2 login --client-id aaa --auth-url https://as.example/authorize --token-url '
              'https://as.example/token \\\n'
              '    --redirect http://127.0.0.1/back --listen --scope openid'),
    'token': ('asks for a token for the client itself, by its client credentials',
              'With --cache it prints the token that the file keeps, renewed where that is needed, whatever command '
              'has put it there.',
              'tools/oauth2 token --client-id aaa --ask-secret --token-url https://as.example/token --output token'),
    'password': ("exchanges a user's name and password", 'The password is ' + STDIN % 'OAUTH2_PASSWORD',
                 'tools/oauth2 password --client-id aaa --token-url https://as.example/token --username ann'),
    'refresh': ('exchanges a refresh token',
                'The refresh token is the one of --cache, OAUTH2_REFRESH_TOKEN' + STDIN % '',
                'tools/oauth2 refresh --client-id aaa --token-url https://as.example/token'),
    'exchange': ('exchanges a token for another one',
                 'The token that is exchanged is the one of --subject-token-file, OAUTH2_SUBJECT_TOKEN%s\n'
                 "With --actor-token-type the token of who acts for the subject goes with it: that of "
                 "--actor-token-file,\n"
                 'OAUTH2_ACTOR_TOKEN%s\n'
                 'A type is one of %s, or another URI.' % (STDIN % '', STDIN % '', ', '.join(grants.TYPES)),
                 'tools/oauth2 exchange --client-id aaa --ask-secret --token-url https://as.example/token --audience '
                 'https://api.example'),
    'assertion': ('exchanges an assertion of another issuer',
                  'The assertion is the one of --assertion-file, OAUTH2_ASSERTION' + STDIN % '' + '\n'
                  'It is a JWT, or with --kind saml2 the XML of a SAML 2.0 assertion, which is encoded here.',
                  'tools/oauth2 assertion --client-id aaa --token-url https://as.example/token --assertion-file '
                  'account.jwt'),
    'device': ('signs in on another device',
               'Prints the code and where to enter it, then asks until the server answers.',
               'tools/oauth2 device --client-id aaa --device-url https://as.example/device --token-url '
               'https://as.example/token'),
    'introspect': ('asks about a token', 'The token is ' + STDIN % 'OAUTH2_TOKEN',
                   'tools/oauth2 introspect --client-id aaa --ask-secret --introspection-url '
                   'https://as.example/introspect'),
    'revoke': ('revokes a token', 'The token is the one of --cache, OAUTH2_TOKEN' + STDIN % '' + '\n'
               'With --cache the refresh token of the file is revoked, or its access token if it has no other; then '
               'the file is removed.',
               'tools/oauth2 revoke --cache ~/.token --revocation-url https://as.example/revoke'),
    'verify-token': ('checks a JWT access token as a resource server does',
                     'The token is ' + STDIN % 'OAUTH2_TOKEN' +
                     ' Its signature is checked by the keys of --jwks-url, or\n'
                     'those of the metadata of --issuer. Prints what an introspection would say of it. What is '
                     'accepted is one of this '
                     'issuer\nfor this audience that has not expired (RFC 9068, 4); whether it was revoked only the '
                     'issuer knows.',
                     'tools/oauth2 verify-token --issuer https://as.example --audience https://api.example'),
    'status': ('says whose token is kept, from which server, and until when it is good',
               'No secret is shown, and no request is made. The line "renewal" says what the next use does, with the '
               'same --margin.\n'
               'The exit status is 5 if a user has to sign in for a good token.',
               'tools/oauth2 status --profile work'),
    'whoami': ('asks the UserInfo endpoint about the user who has signed in',
               'The token is the kept one of a login with --openid, renewed where that is needed. The answer is shown '
               'if its "sub" is\n'
               'that of the ID token (OpenID Connect Core 1.0, 5.3.2).',
               'tools/oauth2 whoami --profile work'),
    'logout': ('revokes the kept token, and removes the file',
               'The refresh token is revoked, or the access token if there is no other. The file is removed also if '
               'the token can not be\n'
               'revoked: because of a setting, as a revocation URL that is not https, of the network, or of the '
               'server. Standard error\n'
               'then says why, and the exit status is 25. revoke --cache keeps the file until the server has said yes.',
               'tools/oauth2 logout --profile work'),
    'git-credential': ('gives git the kept token as a password',
                       'git runs it and adds what it wants: get, store or erase. It answers for --host alone, over '
                       'https. A token that a\n'
                       'server has refused (erase) is renewed at the next use.',
                       "git config --global credential.https://git.example.helper \\\n"
                       "    '!tools/oauth2 git-credential --profile work --host git.example'"),
    'demo': ('gets tokens from a small server on this machine, and shows how',
             'Starts an authorization server at a free port of 127.0.0.1, with one client, and runs other commands '
             'with it: client\n'
             'credentials, a login whose browser is played, the kept token, its renewal, and a sign-in on a device. '
             'Standard error\n'
             'has each command with its requests and replies, and standard output a line with each token. It ends by '
             'itself.',
             'tools/oauth2 demo'),
}
ALONE = ('demo',)  # the commands that take no settings


def pair_of(text: str) -> list[str]:
    name, is_pair, value = text.partition('=')
    if not is_pair:
        raise argparse.ArgumentTypeError('it has to be NAME=VALUE')  # what it is may be a secret
    return [name, value]


def seconds_of(text: str) -> float:
    """A time that a wait can have."""
    try:
        found = float(text)
    except ValueError:
        found = math.nan
    if not 0 < found <= 1e8:
        raise argparse.ArgumentTypeError('"%s" is no number of seconds above 0' % text)
    return found


def whole_from(least: int) -> Callable[[str], int]:
    def whole(text: str) -> int:
        if not text.isascii() or not text.isdigit() or not least <= int(text) < 1 << 64:
            raise argparse.ArgumentTypeError('"%s" is no whole number from %d on' % (text, least))
        return int(text)
    return whole


def file_of(text: str) -> str:
    if not text:
        raise argparse.ArgumentTypeError('it has to name a file')  # not none, as where a variable is empty
    return text


def profile_of(text: str) -> str:
    if not text:
        # not the default one, as where a variable is empty
        raise argparse.ArgumentTypeError('it has to name a profile')
    return text


def port_of(text: str) -> int:
    if not text.isascii() or not text.isdigit() or int(text) > 65535:
        raise argparse.ArgumentTypeError('"%s" is no port: it is 0 to 65535' % text)
    return int(text)


def add_for_all(it: argparse.ArgumentParser, name: str) -> None:
    it.set_defaults(cache=None, extra=None, resource=None, openid=False, push=False, anew=False, ask_secret=False,
                    client_secret_file=None)
    it.add_argument('--profile', type=profile_of, metavar='NAME',
                    help='the profile whose settings are used, and whose token is kept')
    it.add_argument('--no-profile', action='store_true',
                    help='use no profile, also if the file of profiles names a default one')
    it.add_argument('--config', type=file_of, metavar='FILE',
                    help='the file of settings: JSON, or profiles if it ends in .toml')
    it.add_argument('--quiet', action='store_true',
                    help='leave out the notes on standard error: only errors, warnings, and what the user has to do')


def add_for_requests(it: argparse.ArgumentParser, name: str) -> None:
    for setting, what in TEXTS.items():
        if takes(name, setting):
            it.add_argument(flag_of(setting), help=what)
    for setting, what in FILES.items():
        if takes(name, setting):
            it.add_argument(flag_of(setting), type=file_of, metavar='FILE', help=what)
    it.add_argument('--verbose', action='store_true',
                    help='show each request and reply on standard error, with *** in the place of each secret')
    if name not in WITHOUT_CLIENT:
        it.add_argument('--ask-secret', action='store_true', help="read the client's secret first")
        it.add_argument('--client-secret-file', type=file_of, metavar='FILE',
                        help="a file with the client's secret; a newline at its end is left out")
    if name not in ('whoami', 'git-credential', *WITHOUT_CLIENT):
        it.add_argument('--extra', action='append', type=pair_of, metavar='NAME=VALUE',
                        help='a further parameter%s; may be given again' % EXTRA_GOES.get(name, ''))
    add_for_replies(it)


def add_for_replies(it: argparse.ArgumentParser) -> None:
    it.add_argument('--timeout', type=seconds_of, default=30, metavar='SECONDS',
                    help='how long a reply may take (%(default)s)')


def add_for_tokens(it: argparse.ArgumentParser) -> None:
    it.add_argument('--scope', action='append', help='a scope, or several with spaces between them; may be given again')
    it.add_argument('--resource', action='append', type=grants.uri_of, metavar='URI',
                    help='the URI of what the token is to be good for (RFC 8707); may be given again')
    it.add_argument('--output', choices=answers.OUTPUTS, default='json',
                    help='; '.join('%s: %s' % form for form in answers.OUTPUTS.items()) + ' (%(default)s)')
    it.add_argument('--expires', action='store_true',
                    help='with --output json: add the moment at which the token ends, as expires_at (RFC 3339)')
    it.add_argument('--show', action='store_true', help='write the tokens to a terminal without a warning')


def add_for_caches(it: argparse.ArgumentParser) -> None:
    it.add_argument('--cache', type=file_of, metavar='FILE',
                    help='keep the token in this file, or at redis://HOST[:PORT][/DB] or file:///FOLDER, and use the '
                         'one that is there '
                         'while good')
    add_for_renewals(it)
    it.add_argument('--anew', action='store_true', help='ask for a token whatever --cache has, and keep the new one')


def add_margin(it: argparse.ArgumentParser) -> None:
    it.add_argument('--margin', type=whole_from(0), default=60, metavar='SECONDS',
                    help='renew a kept token so long before its end (%(default)s)')


def add_for_renewals(it: argparse.ArgumentParser) -> None:
    add_margin(it)
    it.add_argument('--life', type=whole_from(0), default=3600, metavar='SECONDS',
                    help='how long a kept token is good whose reply does not say (%(default)s)')


def add_for_kept(it: argparse.ArgumentParser, name: str) -> None:
    """The flags of the commands that are about a token that is kept."""
    it.add_argument('--cache', type=file_of, metavar='FILE',
                    help='the file or the redis://HOST that keeps the token (else that of the profile)')
    if name == 'status':
        it.add_argument('--output', choices=('text', 'json'), default='text',
                        help='lines for people, or one line of JSON (%(default)s)')
        add_margin(it)
    if name in ('whoami', 'git-credential'):
        add_for_renewals(it)
    if name == 'git-credential':
        it.add_argument('--host', action='append', required=True,
                        help='a host for which the token is; may be given again')
        it.add_argument('--user', default='oauth2', metavar='NAME',
                        help='the name that goes with the token (%(default)s)')
        it.add_argument('operation', help='what git wants: get, store or erase; others do nothing')


def add_for_one(it: argparse.ArgumentParser, name: str) -> None:
    if name == 'login':
        it.add_argument('--listen', type=port_of, metavar='PORT', nargs='?', const=0,
                        help='receive the redirect at this port of this machine; 0, or no PORT, takes a free one')
        it.add_argument('--wait', type=seconds_of, default=600, metavar='SECONDS',
                        help='how long --listen waits (%(default)s)')
        it.add_argument('--no-browser', action='store_true', help='open no browser with --listen')
        it.add_argument('--push', action='store_true',
                        help='send the parameters to the server before the user goes there (RFC 9126), as --push-url '
                             'does')
        it.add_argument('--openid', action='store_true',
                        help='ask for an ID token (OpenID Connect), check it, and name the user')
        it.add_argument('--max-age', type=whole_from(0), metavar='SECONDS',
                        help='with --openid: how long ago the user may have signed in (--cache then signs in anew, '
                             'too)')
        it.add_argument('--leeway', type=whole_from(0), metavar='SECONDS',
                        help="with --openid: how far this clock and the server's may differ (%d)" % LEEWAY)
        it.add_argument('--algorithm',
                        help='with --openid: the algorithm of the ID token that is registered (else RS256; any but '
                             'none, if no signature is checked)')
    if name == 'exchange':
        add_for_exchange(it)
    if name == 'assertion':
        it.add_argument('--kind', choices=('jwt', 'saml2'), default='jwt', help='what the assertion is (%(default)s)')
        it.add_argument('--assertion-file', type=file_of, metavar='FILE', help='a file with the assertion')
    if name == 'introspect':
        it.add_argument('--hint', help='what the token is, as access_token')
    if name == 'verify-token':
        it.add_argument('--audience', required=True, metavar='NAME',
                        help='the resource server, as the issuer names it in "aud"')
        it.add_argument('--algorithm', help='the algorithm with which the issuer signs access tokens (RS256)')
        it.add_argument('--leeway', type=whole_from(0), metavar='SECONDS',
                        help="how far this clock and the issuer's may differ (%d)" % LEEWAY)
    if name == 'revoke':
        it.add_argument('--kind', choices=('access', 'refresh'), help='what the token is (access)')
        it.add_argument('--cache', type=file_of, metavar='FILE',
                        help='revoke the token of this file, or of redis://HOST, and remove it there')
    if name == 'device':
        it.add_argument('--max-polls', type=whole_from(1), default=1000, metavar='N',
                        help='how often to ask at most (%(default)s)')
        it.add_argument('--give-up', type=whole_from(0), metavar='SECONDS',
                        help='when to give up (else as the server says)')
        it.add_argument('--cap', type=whole_from(0), metavar='SECONDS',
                        help='a request without a reply doubles the wait before the next one, up to this (10)')


def add_for_exchange(it: argparse.ArgumentParser) -> None:
    default = grants.type_of('access_token')
    it.add_argument('--subject-token-file', type=file_of, metavar='FILE',
                    help='a file with the token that is exchanged')
    it.add_argument('--subject-token-type', type=grants.type_of, metavar='TYPE', default=default,
                    help='what that token is (access_token)')
    it.add_argument('--actor-token-file', type=file_of, metavar='FILE',
                    help='a file with the token of who acts for the subject')
    it.add_argument('--actor-token-type', type=grants.type_of, metavar='TYPE',
                    help='what that token is; without this flag there is none')
    it.add_argument('--requested-token-type', type=grants.type_of, metavar='TYPE',
                    help='what the new token is to be (else as the server says)')
    it.add_argument('--audience', action='append', metavar='NAME',
                    help='for whom the new token is, as the server knows it; may be given again')


def looks_in(width: int) -> Callable[[str], argparse.HelpFormatter]:
    """How the help looks; the width is given, since argparse loads a lot to know that of the terminal."""
    return functools.partial(argparse.RawDescriptionHelpFormatter, width=width)


class Parser(argparse.ArgumentParser):
    """Says an error in one line, and writes the help as an answer."""

    def __init__(self, **settings: Any) -> None:
        super().__init__(formatter_class=looks_in(WIDTH), allow_abbrev=False, **settings)  # type: ignore[arg-type]

    def format_help(self) -> str:
        import shutil
        self.formatter_class = looks_in(shutil.get_terminal_size().columns - 2)  # type: ignore[assignment]
        return super().format_help()

    def error(self, message: str) -> NoReturn:
        raise Stop('%s (%s --help lists the flags)' % (message, self.prog), BAD_SETTING)

    def print_help(self, file: Any = None) -> None:
        answers.put(self.format_help())


class Version(argparse.Action):
    def __call__(self, parser: argparse.ArgumentParser, *_: Any) -> None:
        import lifecrib

        from . import programs
        answers.put('%s %s\n' % (endings.command, programs.version(lifecrib.__version__)))
        parser.exit()


def looks_of(name: str) -> dict[str, Any]:
    """How the help of a command looks."""
    about, more, example = ABOUT[name]
    return dict(description=about + '.', epilog=in_package('%s\n\nExample:\n    %s\n\n%s' % (more, example, MORE)))


def add_flags(it: argparse.ArgumentParser, name: str) -> None:
    """Adds the flags of a command to its parser."""
    if name in ALONE:
        it.set_defaults(quiet=False, of_profile=None)
        return
    add_for_all(it, name)
    if name == 'status':
        add_for_replies(it)
    else:
        add_for_requests(it, name)
    if name in OF_KEPT:
        add_for_kept(it, name)
    if name not in GIVES_NO_TOKEN:
        add_for_tokens(it)
    if name not in (*GIVES_NO_TOKEN, *KEEPS_NONE):
        add_for_caches(it)
    add_for_one(it, name)


def parser_of(doc: str) -> tuple[Parser, Mapping[str, argparse.ArgumentParser]]:
    """The parser of all flags, and those of the commands by name; doc is the help of the whole."""
    about, _, more = in_package(doc).partition('\n\n')
    parser = Parser(prog=endings.command, description=about.partition(': ')[2], epilog=more)
    parser.add_argument('--version', action=Version, nargs=0, help='say which revision this is, and what runs scripts')
    several = parser.add_subparsers(dest='command', metavar='COMMAND', required=True, help='one of ' + ', '.join(ABOUT))
    for name in ABOUT:
        add_flags(several.add_parser(name, **looks_of(name)), name)
    return parser, several.choices


def in_package(text: str) -> str:
    """A text of the help, as a package has it: with its name of the command, and the page beside it."""
    if endings.command == 'tools/oauth2':
        return text
    return text.replace('tools/oauth2', endings.command).replace('docs/TOOL.md', 'the page TOOL.md')


def parsed(words: Sequence[str], doc: str) -> tuple[argparse.ArgumentParser, argparse.Namespace, list[str]]:
    """The parser of a command, its flags, and what no flag takes. Of the parsers only that of the command is made, if
    that comes first."""
    if words and words[0] in ABOUT:
        name = words[0]
        it: argparse.ArgumentParser = Parser(prog='%s %s' % (endings.command, name), **looks_of(name))
        add_flags(it, name)
        given, unknown = it.parse_known_args(words[1:])
        given.command = name
        return it, given, unknown
    parser, of_commands = parser_of(doc)
    first = words[0].partition('=')[0] if words else ''
    if first.startswith('--') and first not in parser._option_string_actions:  # what follows may be a secret
        parser.error('%s goes behind the command' % first)
    given, unknown = parser.parse_known_args(words)
    return of_commands[given.command], given, unknown


def arguments(words: Sequence[str], doc: str) -> argparse.Namespace:
    check_secrets(words)
    parser, given, unknown = parsed(words, doc)
    check_known(parser, unknown)
    endings.quiet = given.quiet
    if given.command in ALONE:
        return given
    profiles.apply(given)
    check_flags(parser, given)
    return given


def check_secrets(words: Iterable[str]) -> None:
    """Stops at a flag that would have a secret, before anything of it is shown."""
    for word in words:
        if word.partition('=')[0] in NO_FLAGS:
            name = word.partition('=')[0]
            raise Stop('%s is no flag, since all users of a machine can see its processes with their flags: give %s'
                       % (name, NO_FLAGS[name]), BAD_SETTING)


def check_known(parser: argparse.ArgumentParser, unknown: Sequence[str]) -> None:
    """Stops at a flag that is unknown. What no flag takes is not shown: it may be a secret."""
    if unknown:
        names = [it.partition('=')[0] for it in unknown if it.startswith('--')]
        parser.error('there is no flag %s' % names[0] if names else 'there is an argument that no flag takes')


def check_flags(parser: argparse.ArgumentParser, given: argparse.Namespace) -> None:
    """Stops at a flag that goes with another that is not given, or without one that is."""
    for name in ('max_age', 'leeway', 'algorithm') if given.command == 'login' else ():
        if getattr(given, name) is not None and not given.openid:
            parser.error('%s goes with --openid' % flag_of(name))
    if given.command == 'login':
        given.anew = given.anew or given.max_age is not None
    if given.command == 'exchange' and given.actor_token_file and not given.actor_token_type:
        parser.error('--actor-token-file goes with --actor-token-type')
    if given.command == 'revoke' and given.cache and given.kind:
        parser.error('--kind goes without --cache')
    if given.command not in GIVES_NO_TOKEN and given.expires and given.output != 'json':
        parser.error('--expires goes with --output json')
    if given.command in OF_KEPT and not given.cache:
        parser.error('%s needs --profile or --cache, to know whose token it is' % given.command)
