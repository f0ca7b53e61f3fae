"""tools/oauth2 COMMAND ..: gets a token from a real OAuth 2.0 server, or asks about one.

    login           sends the user to the authorization URL and exchanges the code that comes back (RFC 6749, 4.1;
                    PKCE, RFC 7636)
    token           asks for a token for the client itself, by its client credentials (RFC 6749, 4.4)
    password        exchanges a user's name and password (RFC 6749, 4.3)
    refresh         exchanges a refresh token (RFC 6749, 6)
    exchange        exchanges a token for another one (RFC 8693)
    assertion       exchanges an assertion of another issuer: a JWT (RFC 7523, 2.1) or one of SAML (RFC 7522, 2.1)
    device          signs in on another device (RFC 8628)
    introspect      asks about a token (RFC 7662)
    revoke          revokes a token (RFC 7009)
    verify-token    checks a JWT access token by its issuer's keys, as a resource server does (RFC 9068)
    status          says whose token is kept, from which server, and until when it is good
    whoami          asks the UserInfo endpoint about the user who has signed in (OpenID Connect Core 1.0, 5.3)
    logout          revokes the kept token, and removes the file
    git-credential  gives git the kept token as a password (gitcredentials(7))
    demo            gets tokens from a small server on this machine, and shows each request and reply

tools/oauth2 COMMAND --help has an example of each, and docs/TOOL.md says more.

The library (docs/SCRIPT.md) makes each request and reads each reply. This tool writes a script for it, sends the
first request that the library shows and has no reply for, puts the reply into the script, and runs the script again
until there is an answer. The tool follows no redirect and checks certificates. Every URL has to be https; http is
taken only if the server is on this machine, and not for a revocation. HTTPS_PROXY and NO_PROXY are read as Python's
standard library reads them.

An endpoint that is not set is looked up in the metadata of the issuer that --issuer names. The place of RFC 8414 is
asked first, and where that has no metadata, the place of OpenID Connect Discovery.

The client, its endpoints and the scopes are settings. Each comes from its flag, else from the environment, else from
the JSON file that --config or OAUTH2_CONFIG names: the flag --token-url is OAUTH2_TOKEN_URL and the member
"token_url". The variables are OAUTH2_ and one of CLIENT_ID, AUTH, ISSUER, SERVER, ID_TOKEN_ISSUER, USERNAME,
AUTH_URL, TOKEN_URL, DEVICE_URL, INTROSPECTION_URL, REVOCATION_URL, PUSH_URL, USERINFO_URL, JWKS_URL, REDIRECT,
CACERT, CLIENT_CERT, CLIENT_KEY, CLIENT_ASSERTION_FILE, and SCOPE or SCOPES. Other flags have neither.

A profile has settings under a name: the table [profile.NAME] of the file lifecrib/config.toml in $XDG_CONFIG_HOME, or
else ~/.config. --profile or OAUTH2_PROFILE names it, or the key default_profile of the file. Its token is kept in the
folder lifecrib of $XDG_STATE_HOME, or else ~/.local/state. --config and --cache come before a profile.

--cache keeps a token in a file for the runs of one machine, or on Redis for those of many:
redis://HOST[:PORT][/DB][?name=NAME], or rediss:// over TLS, by Python's module redis. The name of the token is that
of the profile unless NAME is given. The password of Redis is OAUTH2_REDIS_PASSWORD. file:///FOLDER[?name=NAME] is a
folder in the place of Redis, for the runs of one machine. docs/TOOL.md says which settings of Redis it needs, and
what becomes of a run that is killed.

No secret has a flag, so that none is in the list of processes. The client's secret is asked for with --ask-secret, or
is in the file of --client-secret-file, in OAUTH2_CLIENT_SECRET, or in the member "client_secret". In its place the
file of --client-assertion-file may have a JWT that another program made (RFC 7523, 2.2), as in Kubernetes. Other
secrets are OAUTH2_PASSWORD, OAUTH2_REFRESH_TOKEN, OAUTH2_TOKEN, OAUTH2_SUBJECT_TOKEN, OAUTH2_ACTOR_TOKEN,
OAUTH2_ASSERTION or a line of standard input, which a terminal does not show; so is the redirect URL.

--cacert names the certificates that are trusted, --client-cert and --client-key the client's own (RFC 8705).
--verbose shows each request and reply on standard error, with *** in the place of each secret.

`login --openid` asks for an ID token too (OpenID Connect Core 1.0), which says who has signed in. The library checks
what it claims, and standard error names the user. If it is refused, or none comes, nothing of the reply is shown or
kept.

Scripts are run by the program that OAUTH2_PROGRAM names, else in this process by the library of the package lifecrib,
or that which LIFECRIB_LIBRARY names. In a checkout without a library it is the program that tools/prove or
`tools/test --proved` has built; if there is none, it is compiled without proofs, which takes two to three minutes,
once for a checkout. A line on standard error says if what runs is not proved.

Standard output has the answer as one line: the whole reply as JSON, or as --output says; of revoke, null. status and
git-credential write several lines, and logout none. All else goes to standard error, where an error is one line.

Exit status:
      0  an answer
      1  a fault that has no status of its own: a reply that can't be read, say, or --max-polls
      2  something that you gave, or did not give: a flag, a variable, a secret, a file of settings, or what --cache
         names
      3  the library ran out of memory
      4  an answer, but --cache could not keep it
      5  the kept token can't be renewed, or there is none: sign in anew
      6  an endpoint could not be discovered: the issuer has no metadata, or they do not have it
      7  a token is refused: the ID token of --openid, or that of verify-token; or what the UserInfo endpoint says is
         about another user
      8  the server sent no ID token, though --openid was given
      9  to be tried again: no connection, no whole reply in time, HTTP status 429 or 500 to 599, or another run has
         the token of --cache
     10  invalid_request               17  unsupported_response_type
     11  invalid_client                18  server_error
     12  invalid_grant                 19  temporarily_unavailable
     13  unauthorized_client           20  expired_token
     14  unsupported_grant_type        21  unsupported_token_type
     15  invalid_scope                 22  authorization_pending
     16  access_denied                 23  slow_down
     24  invalid_target (20 also by --give-up)
     25  the token is kept no more and could not be revoked: of logout
    125  the tool stopped before an answer was written, by no fault of a setting: no library, say, a full disk, or no
         browser in time
    129, 130, 131, 143  it was ended by SIGHUP, by Ctrl-C, by SIGQUIT, or by SIGTERM
"""
