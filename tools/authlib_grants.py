"""What Authlib reads of requests: the JWT of a grant (RFC 7523, 2.1) by JWTBearerGrant, and the client's own (RFC 7523, 2.2) by
JWTBearerClientAssertion; for tools/compare-grants.

As a program, in a Python that has Authlib, it reads requests as JSON, each a target and a body, and writes what Authlib reads of each: an
object of the texts that are there, or of the error.
"""
import json
import subprocess
import sys

import pythons

MISSING = "Authlib isn't installed: Debian's package is python3-authlib"


def read_by_authlib(requests):
    """What Authlib reads of each request, a target and a body; None where it is not installed."""
    python = pythons.that_has('authlib')
    if not python:
        return None
    run = subprocess.run([python, __file__], input=json.dumps(requests), stdout=subprocess.PIPE, text=True, check=True)
    return json.loads(run.stdout)


def main():
    """Reads the requests by Authlib."""
    from authlib.common.urls import url_decode
    from authlib.oauth2 import OAuth2Error, rfc6749, rfc7523

    class Client(rfc6749.ClientMixin):
        def check_grant_type(self, _):
            return True

        def check_endpoint_auth_method(self, _method, _endpoint):
            return True

    class Grant(rfc7523.JWTBearerGrant):
        def process_assertion_claims(self, assertion):
            self.request.read['assertion'] = assertion
            return {'iss': 'issuer'}

        def resolve_issuer_client(self, _issuer):
            return Client()

    class OfClient(rfc7523.JWTBearerClientAssertion):
        def process_assertion_claims(self, assertion, _):
            self.request.read['client_assertion'] = assertion

        def __call__(self, query_client, request):
            self.request, request.client = request, Client()
            return super().__call__(query_client, request)

    server = rfc6749.AuthorizationServer()
    server.register_client_auth_method(OfClient.CLIENT_AUTH_METHOD, OfClient('x'))

    def read(target, body):
        try:
            request = rfc6749.OAuth2Request('POST', target, dict(url_decode(body)))
            request.read = {}
            if 'client_assertion' in request.form:
                server.authenticate_client(request, [OfClient.CLIENT_AUTH_METHOD])
            if Grant.check_token_endpoint(request):
                Grant(request, server).validate_token_request()
                request.read['scope'] = request.scope
        except (OAuth2Error, ValueError) as error:
            return {'error': str(error)}
        return request.read
    json.dump([read(*it) for it in json.load(sys.stdin)], sys.stdout)


if __name__ == '__main__':
    main()
