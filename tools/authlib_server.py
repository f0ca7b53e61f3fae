"""A token endpoint by Authlib, at https on this machine, for tools/try-servers: it takes a JWT of the client (RFC 7523, 2.2) by
JWTBearerClientAssertion, and one of an issuer as a grant (RFC 7523, 2.1) by JWTBearerGrant. Of the exchange of a token (RFC 8693) Authlib
has nothing, so Exchange here is a grant of our own.

It runs in a Python that has Authlib: authlib_server.py PORT SECRET, in a folder with cert.pem and key.pem. The client that asserts itself
is "code", whose key is client.pem there; that of the client "issuer", which gives tokens for the user "ann", is grant.pem. The client
"service" has the secret.
"""
import http.server
import json
import ssl
import sys
import urllib.parse

from authlib.oauth2 import rfc6749, rfc6750, rfc7523

PORT, SECRET = int(sys.argv[1]), sys.argv[2]
TOKEN_URL = 'https://localhost:%d/token' % PORT
KEYS = {'issuer': 'grant.pem', 'code': 'client.pem'}
USERS = ('ann',)
SERVICE, BY_SECRET = 'service', 'client_secret_basic'
TOKEN, TOKEN_TYPE, AUDIENCE = 'a-token-of-Authlib', 'urn:ietf:params:oauth:token-type:', 'https://api.example/'


class Client(rfc6749.ClientMixin):
    def __init__(self, name):
        self.name = name

    def get_client_id(self):
        return self.name

    def get_allowed_scope(self, scope):
        return scope

    def check_endpoint_auth_method(self, method, _endpoint):
        return method == (BY_SECRET if self.name == SERVICE else ByAssertion.CLIENT_AUTH_METHOD)

    def check_client_secret(self, secret):
        return secret == SECRET

    def check_grant_type(self, grant_type):
        return True

    def key(self):
        """The public key of the client."""
        with open(KEYS[self.name], 'rb') as f:
            return f.read()


def client_of(name):
    return Client(name) if name in (*KEYS, SERVICE) else None


class ByAssertion(rfc7523.JWTBearerClientAssertion):
    seen = set()

    def validate_jti(self, _claims, jti):
        """Whether a token comes for the first time."""
        is_new = jti not in self.seen
        self.seen.add(jti)
        return is_new

    def resolve_client_public_key(self, client, _headers):
        return client.key()


class ByClient(rfc6749.ClientCredentialsGrant):
    TOKEN_ENDPOINT_AUTH_METHODS = [ByAssertion.CLIENT_AUTH_METHOD, BY_SECRET]


class ByJwt(rfc7523.JWTBearerGrant):
    CLAIMS_OPTIONS = {**rfc7523.JWTBearerGrant.CLAIMS_OPTIONS, 'aud': {'essential': True, 'value': TOKEN_URL}}

    def resolve_issuer_client(self, issuer):
        if issuer != 'issuer':
            raise rfc6749.errors.InvalidGrantError()
        return client_of(issuer)

    def resolve_client_key(self, client, _headers, _payload):
        return client.key()

    def authenticate_user(self, subject):
        return subject if subject in USERS else None

    def has_granted_permission(self, _client, _user):
        return True


class InvalidTarget(rfc6749.errors.OAuth2Error):
    error = 'invalid_target'


class Exchange(rfc6749.BaseGrant, rfc6749.TokenEndpointMixin):
    """RFC 8693, 2: of the token that this server gives; the actor's token is a JWT of the issuer."""
    GRANT_TYPE = 'urn:ietf:params:oauth:grant-type:token-exchange'
    TOKEN_ENDPOINT_AUTH_METHODS = [ByAssertion.CLIENT_AUTH_METHOD, BY_SECRET]

    def validate_token_request(self):
        form = self.request.form
        self.request.client = self.authenticate_token_endpoint_client()
        if (form.get('subject_token'), form.get('subject_token_type')) != (TOKEN, TOKEN_TYPE + 'access_token'):
            raise rfc6749.errors.InvalidRequestError()
        if ('actor_token' in form) != ('actor_token_type' in form) or form.get('actor_token_type', TOKEN_TYPE + 'jwt') != TOKEN_TYPE + 'jwt':
            raise rfc6749.errors.InvalidRequestError()
        if 'actor_token' in form:
            self.check_actor(form['actor_token'])
        if form.get('audience', AUDIENCE) != AUDIENCE:
            raise InvalidTarget()

    def check_actor(self, token):
        try:
            ByJwt(self.request, self.server).process_assertion_claims(token)
        except rfc6749.errors.InvalidGrantError:
            raise rfc6749.errors.InvalidRequestError()  # by 2.2.2

    def create_token_response(self):
        issued = self.request.form.get('requested_token_type', TOKEN_TYPE + 'access_token')
        kind = 'Bearer' if issued == TOKEN_TYPE + 'access_token' else 'N_A'
        token = {'access_token': 'another-token', 'issued_token_type': issued, 'token_type': kind, 'expires_in': 60}
        return 200, token, self.TOKEN_RESPONSE_HEADER


class Server(rfc6749.AuthorizationServer):
    def query_client(self, client_id):
        return client_of(client_id)

    def save_token(self, _token, _request):
        """Keeps none."""

    def send_signal(self, *_, **__):
        """Sends none."""

    def create_oauth2_request(self, request):
        return request

    def handle_response(self, status, body, headers):
        return status, body, headers


SERVER = Server(['read'])
SERVER.register_token_generator('default', rfc6750.BearerTokenGenerator(lambda **_: TOKEN))
SERVER.register_client_auth_method(ByAssertion.CLIENT_AUTH_METHOD, ByAssertion(TOKEN_URL))
SERVER.register_grant(ByClient)
SERVER.register_grant(ByJwt)
SERVER.register_grant(Exchange)


class Handler(http.server.BaseHTTPRequestHandler):
    def do_POST(self):
        text = self.rfile.read(int(self.headers['Content-Length'])).decode()
        form = dict(urllib.parse.parse_qsl(text, keep_blank_values=True))
        asked = rfc6749.OAuth2Request('POST', TOKEN_URL, form, dict(self.headers))
        status, body, headers = SERVER.create_token_response(asked)
        self.send_response(status)
        for name, value in headers:
            self.send_header(name, value)
        self.end_headers()
        self.wfile.write(json.dumps(body).encode())

    def log_message(self, *_):
        """Says nothing."""


def main():
    server = http.server.ThreadingHTTPServer(('127.0.0.1', PORT), Handler)
    context = ssl.SSLContext(ssl.PROTOCOL_TLS_SERVER)
    context.load_cert_chain('cert.pem', 'key.pem')
    server.socket = context.wrap_socket(server.socket, server_side=True)
    server.serve_forever()


if __name__ == '__main__':
    main()
