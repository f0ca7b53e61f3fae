//! The operations of `oauth2_bench` by the Rust crate `oauth2`: the same names, inputs and output.

use chrono::{DateTime, Utc};
use oauth2::basic::{BasicClient, BasicTokenIntrospectionResponse, BasicTokenResponse};
use oauth2::http::{Response, StatusCode};
use oauth2::{
    AccessToken, AuthUrl, AuthorizationCode, ClientId, ClientSecret, CsrfToken, EndpointNotSet, EndpointSet,
    HttpRequest, HttpResponse, IntrospectionUrl, PkceCodeChallenge, PkceCodeVerifier, RedirectUrl, Scope,
    StandardDeviceAuthorizationResponse, TokenIntrospectionResponse, TokenResponse, TokenUrl,
};
use std::cell::Cell;
use std::convert::Infallible;
use std::hint::black_box;
use std::time::Instant;

type Client = BasicClient<EndpointSet, EndpointNotSet, EndpointNotSet, EndpointNotSet, EndpointSet>;

const SHORT: &str = "{\"access_token\": \"12/34\", \"token_type\": \"BEARER\"}";

fn client() -> Client {
    BasicClient::new(ClientId::new("aaa".to_string()))
        .set_client_secret(ClientSecret::new("bbb".to_string()))
        .set_auth_uri(AuthUrl::new("https://example.com/auth".to_string()).unwrap())
        .set_token_uri(TokenUrl::new("https://example.com/token".to_string()).unwrap())
}

fn long(size: usize) -> String {
    let token: String = (0..size).map(|i| (b'a' + (i % 26) as u8) as char).collect();
    format!(
        "{{\"access_token\":\"{token}\",\"token_type\":\"bearer\",\"expires_in\":3600,\
         \"refresh_token\":\"r1\",\"scope\":\"read write\"}}"
    )
}

fn introspection() -> String {
    let mut s = String::from(
        "{\"active\":true,\"scope\":\"email profile openid offline_access read write admin\",\
         \"client_id\":\"s6BhdRkqt3\",\"username\":\"jdoe\",\"token_type\":\"Bearer\",\
         \"exp\":1604073517,\"iat\":1604073217,\"nbf\":1604073317,\
         \"sub\":\"Z5O3upPC88QrAjx00dis\",\
         \"aud\":[\"https://protected.example.net/resource\",\"https://other.example.net/\"],\
         \"iss\":\"https://server.example.com/\",\"jti\":\"2b7a4a2e-8d6e-4f0c-9c2a-0f6b7c1d5e11\"",
    );
    for k in 0..12 {
        s.push_str(&format!(",\"extension_field_{k}\":\"value number {k} of the extension\""));
    }
    s.push('}');
    s
}

/// Runs an operation so often; the nanoseconds, and what its last run did.
fn timed(iterations: u64, mut operation: impl FnMut() -> (usize, usize)) -> (u128, (usize, usize)) {
    let start = Instant::now();
    let mut done = (0, 0);
    for _ in 0..iterations {
        done = black_box(operation());
    }
    (start.elapsed().as_nanos(), done)
}

/// A client that hands back one reply.
fn canned<'a>(sent: &'a Cell<usize>, body: &'a str) -> impl Fn(HttpRequest) -> Result<HttpResponse, Infallible> + 'a {
    move |request: HttpRequest| {
        sent.set(black_box(&request).body().len());
        Ok(Response::new(body.as_bytes().to_vec()))
    }
}

fn token_request(body: String, iterations: u64) -> (u128, (usize, usize)) {
    let (client, sent) = (client(), Cell::new(0));
    let http = canned(&sent, &body);
    timed(iterations, || {
        let token: BasicTokenResponse =
            client.exchange_code(AuthorizationCode::new("ccc".to_string())).request(&http).unwrap();
        (sent.get(), token.access_token().secret().len())
    })
}

fn client_credentials(number: usize, iterations: u64) -> (u128, (usize, usize)) {
    let params: Vec<(String, String)> = (0..number)
        .map(|i| (format!("param_{i}"), format!("value number {i} & more")))
        .collect();
    let scopes: Vec<String> =
        ["read", "write", "profile", "email", "offline_access"].iter().map(|s| s.to_string()).collect();
    let (client, sent) = (client(), Cell::new(0));
    let http = canned(&sent, SHORT);
    timed(iterations, || {
        let mut request = client.exchange_client_credentials();
        for scope in &scopes {
            request = request.add_scope(Scope::new(scope.clone()));
        }
        for (name, value) in &params {
            request = request.add_extra_param(name.as_str(), value.as_str());
        }
        let token: BasicTokenResponse = request.request(&http).unwrap();
        (sent.get(), token.access_token().secret().len())
    })
}

fn verifier() -> PkceCodeVerifier {
    PkceCodeVerifier::new("dBjftJeZ4CVP-mB92K27uhbUJU1p1r_wW1gFWFOEjXk".to_string())
}

fn authorization_url(iterations: u64) -> (u128, (usize, usize)) {
    let client = client().set_redirect_uri(RedirectUrl::new("https://localhost/redirect".to_string()).unwrap());
    let challenge = PkceCodeChallenge::from_code_verifier_sha256(&verifier());
    timed(iterations, || {
        let (url, _) = client
            .authorize_url(|| CsrfToken::new("csrf_token".to_string()))
            .set_pkce_challenge(challenge.clone())
            .add_scope(Scope::new("read".to_string()))
            .add_scope(Scope::new("write".to_string()))
            .add_scope(Scope::new("openid".to_string()))
            .url();
        (0, url.as_str().len())
    })
}

/// What `endpoint_response` does with the body of a success.
fn read<T: for<'de> serde::Deserialize<'de>>(body: &[u8]) -> T {
    serde_path_to_error::deserialize(&mut serde_json::Deserializer::from_slice(body)).unwrap()
}

fn token_reading(size: usize, iterations: u64) -> (u128, (usize, usize)) {
    let body = long(size);
    timed(iterations, || {
        let token: BasicTokenResponse = read(black_box(body.as_bytes()));
        (0, token.access_token().secret().len())
    })
}

fn introspection_request(iterations: u64) -> (u128, (usize, usize)) {
    let client = BasicClient::new(ClientId::new("aaa".to_string()))
        .set_client_secret(ClientSecret::new("bbb".to_string()))
        .set_introspection_url(IntrospectionUrl::new("https://example.com/introspect".to_string()).unwrap());
    let (token, body, sent) = (AccessToken::new("access_token_123".to_string()), introspection(), Cell::new(0));
    let http = canned(&sent, &body);
    timed(iterations, || {
        let answer: BasicTokenIntrospectionResponse = client.introspect(&token).request(&http).unwrap();
        (sent.get(), answer.scopes().unwrap().len())
    })
}

fn introspection_reading(iterations: u64) -> (u128, (usize, usize)) {
    let body = introspection();
    timed(iterations, || {
        let answer: BasicTokenIntrospectionResponse = read(black_box(body.as_bytes()));
        (0, answer.scopes().unwrap().len())
    })
}

fn challenge(iterations: u64) -> (u128, (usize, usize)) {
    let verifier = verifier();
    timed(iterations, || {
        (0, PkceCodeChallenge::from_code_verifier_sha256(black_box(&verifier)).as_str().len())
    })
}

const DEVICE: &str = "{\"device_code\":\"12345\",\"user_code\":\"abcde\",\"verification_uri\":\"https://verify/here\",\
    \"expires_in\":3600,\"interval\":5}";

fn device_poll(number: u32, iterations: u64) -> (u128, (usize, usize)) {
    let device: StandardDeviceAuthorizationResponse = serde_json::from_str(DEVICE).unwrap();
    let (client, sent, pending) = (client(), Cell::new(0), Cell::new(0));
    let http = |request: HttpRequest| -> Result<HttpResponse, Infallible> {
        sent.set(black_box(&request).body().len());
        if pending.get() == 0 {
            return Ok(Response::new(SHORT.as_bytes().to_vec()));
        }
        pending.set(pending.get() - 1);
        let mut reply = Response::new(b"{\"error\":\"authorization_pending\"}".to_vec());
        *reply.status_mut() = StatusCode::BAD_REQUEST;
        Ok(reply)
    };
    timed(iterations, || {
        pending.set(number);
        let token: BasicTokenResponse = client
            .exchange_device_access_token(&device)
            .set_time_fn(DateTime::<Utc>::default)
            .request(&http, |_| (), None)
            .unwrap();
        (sent.get(), token.access_token().secret().len())
    })
}

/// Those that run without arguments. The others are the same at greater sizes.
const NAMES: [&str; 17] = [
    "a_code_exchange",
    "b_client_credentials_20_extra_5_scopes",
    "b_client_credentials_200_extra_5_scopes",
    "b_client_credentials_2000_extra_5_scopes",
    "c_authorize_url_pkce_3_scopes_redirect",
    "d_introspection_1kb_request",
    "d_introspection_1kb_read_alone",
    "e_token_4kb_request",
    "e_token_64kb_request",
    "e_token_1mb_request",
    "e_token_4kb_read_alone",
    "e_token_64kb_read_alone",
    "e_token_1mb_read_alone",
    "f_pkce_challenge_sha256",
    "g_device_poll_10_pending",
    "g_device_poll_100_pending",
    "g_device_poll_1000_pending",
];

fn measure(name: &str, iterations: u64) -> (u128, (usize, usize)) {
    match name {
        "a_code_exchange" => token_request(SHORT.to_string(), iterations),
        "b_client_credentials_20_extra_5_scopes" => client_credentials(20, iterations),
        "b_client_credentials_200_extra_5_scopes" => client_credentials(200, iterations),
        "b_client_credentials_2000_extra_5_scopes" => client_credentials(2000, iterations),
        "b_client_credentials_20000_extra_5_scopes" => client_credentials(20000, iterations),
        "b_client_credentials_200000_extra_5_scopes" => client_credentials(200000, iterations),
        "c_authorize_url_pkce_3_scopes_redirect" => authorization_url(iterations),
        "d_introspection_1kb_request" => introspection_request(iterations),
        "d_introspection_1kb_read_alone" => introspection_reading(iterations),
        "e_token_4kb_request" => token_request(long(4 << 10), iterations),
        "e_token_64kb_request" => token_request(long(64 << 10), iterations),
        "e_token_1mb_request" => token_request(long(1 << 20), iterations),
        "e_token_16mb_request" => token_request(long(16 << 20), iterations),
        "e_token_100mb_request" => token_request(long(100 << 20), iterations),
        "e_token_4kb_read_alone" => token_reading(4 << 10, iterations),
        "e_token_64kb_read_alone" => token_reading(64 << 10, iterations),
        "e_token_1mb_read_alone" => token_reading(1 << 20, iterations),
        "f_pkce_challenge_sha256" => challenge(iterations),
        "g_device_poll_10_pending" => device_poll(10, iterations),
        "g_device_poll_100_pending" => device_poll(100, iterations),
        "g_device_poll_1000_pending" => device_poll(1000, iterations),
        "g_device_poll_10000_pending" => device_poll(10000, iterations),
        "g_device_poll_100000_pending" => device_poll(100000, iterations),
        _ => std::process::exit(2),
    }
}

fn main() {
    let arguments: Vec<String> = std::env::args().skip(1).collect();
    match arguments.as_slice() {
        [option, name, number] if option == "--time" => {
            println!("{}", measure(name, number.parse().unwrap()).0);
        }
        _ => {
            for name in NAMES {
                let (_, (sent, read)) = measure(name, 3);
                println!("{name} {sent} {read}");
            }
        }
    }
}
