//! Runs scripts (docs/SCRIPT.md) by the Rust crate `oauth2`.
//!
//! Standard input has one script a line. For each the lines of its run are written, then `exit N` and
//! an empty line. What the crate does is shown as it is: where it panics the line is
//! `answer panic ".."` and the status 101. A fault of reading shows the path that
//! `serde_path_to_error` tells, and `?` for the cause, which the crate does not tell.
//!
//! The commands `keeper` and `redirect` are unknown here, since the crate has neither.

use base64::prelude::*;
use chrono::{DateTime, TimeZone, Utc};
use oauth2::basic::{
    BasicClient, BasicErrorResponse, BasicRevocationErrorResponse, BasicTokenIntrospectionResponse, BasicTokenResponse,
};
use oauth2::http::header::{ACCEPT, AUTHORIZATION, CONTENT_TYPE};
use oauth2::http::{HeaderValue, Response, StatusCode};
use oauth2::{
    AccessToken, AuthType, AuthUrl, AuthorizationCode, ClientId, ClientSecret, ConfigurationError, CsrfToken,
    DeviceAuthorizationUrl, DeviceCodeErrorResponse, EmptyExtraDeviceAuthorizationFields, EndpointMaybeSet,
    ErrorResponse, HttpRequest, HttpResponse, IntrospectionUrl, PkceCodeChallenge, PkceCodeVerifier, RedirectUrl,
    RefreshToken, RequestTokenError, ResourceOwnerPassword, ResourceOwnerUsername, ResponseType, RevocationUrl, Scope,
    StandardDeviceAuthorizationResponse, StandardRevocableToken, TokenUrl,
};
use serde_json::{Map, Value};
use std::borrow::Cow;
use std::cell::{Cell, RefCell};
use std::fmt::{self, Display, Write as _};
use std::io::{Read, Write};
use std::panic::{catch_unwind, resume_unwind, AssertUnwindSafe};
use std::sync::atomic::{AtomicUsize, Ordering};
use std::time::Duration;

// The script, judged whole. None: it is bad.

// From -9999-01-02T01:59:59Z to 9999-12-30T22:00:00Z.
const READINGS: std::ops::RangeInclusive<i64> = -377_705_023_201..=253_402_207_200;

type Client =
    BasicClient<EndpointMaybeSet, EndpointMaybeSet, EndpointMaybeSet, EndpointMaybeSet, EndpointMaybeSet>;
type Pairs = Vec<(String, String)>;

enum Reply {
    Fail,
    Answer { status: StatusCode, content_type: Option<HeaderValue>, body: Vec<u8> },
}

enum Command {
    Code { code: String, verifier: Option<String>, redirect: Option<RedirectUrl> },
    Refresh { token: String },
    Password { username: String, password: String },
    ClientCredentials,
    Introspect { token: String, hint: Option<String> },
    Revoke { token: String, is_refresh: bool },
    DeviceAuthorization,
    DevicePoll { device: StandardDeviceAuthorizationResponse, max_polls: u64, timeout: Option<u64>, cap: Option<u64> },
    Authorize {
        state: String,
        verifier: Option<String>,
        redirect: Option<RedirectUrl>,
        response_type: Option<String>,
    },
}

struct Script {
    client: Client,
    command: Command,
    scopes: Vec<String>,
    extra: Pairs,
    replies: Vec<Reply>,
    readings: Vec<i64>,
}

type Members = Map<String, Value>;

/// A member, read where it is there.
fn member<'v, T>(object: &'v Members, name: &str, read: impl Fn(&'v Value) -> Option<T>) -> Option<Option<T>> {
    match object.get(name) {
        None => Some(None),
        Some(value) => read(value).map(Some),
    }
}

fn text_of(value: &Value) -> Option<String> {
    value.as_str().map(str::to_string)
}

fn text(object: &Members, name: &str) -> Option<String> {
    member(object, name, text_of)?
}

/// A list; an empty one where it is absent.
fn list<T>(object: &Members, name: &str, read: impl Fn(&Value) -> Option<T>) -> Option<Vec<T>> {
    let items = member(object, name, Value::as_array)?;
    items.into_iter().flatten().map(read).collect()
}

fn pair(value: &Value) -> Option<(String, String)> {
    match value.as_array()?.as_slice() {
        [Value::String(name), Value::String(value)] => Some((name.clone(), value.clone())),
        _ => None,
    }
}

fn verifier(object: &Members) -> Option<Option<String>> {
    member(object, "verifier", |value| text_of(value).filter(|it| (43..=128).contains(&it.len())))
}

macro_rules! url {
    ($object:expr, $name:expr, $type:ident) => {
        member($object, $name, |value| $type::new(text_of(value)?).ok())
    };
}

fn read_client(object: &Members) -> Option<Client> {
    let mut client = BasicClient::new(ClientId::new(text(object, "id")?))
        .set_auth_uri_option(url!(object, "auth_url", AuthUrl)?)
        .set_token_uri_option(url!(object, "token_url", TokenUrl)?)
        .set_device_authorization_url_option(url!(object, "device_url", DeviceAuthorizationUrl)?)
        .set_introspection_url_option(url!(object, "introspection_url", IntrospectionUrl)?)
        .set_revocation_url_option(url!(object, "revocation_url", RevocationUrl)?);
    if let Some(secret) = member(object, "secret", text_of)? {
        client = client.set_client_secret(ClientSecret::new(secret));
    }
    if let Some(redirect) = url!(object, "redirect", RedirectUrl)? {
        client = client.set_redirect_uri(redirect);
    }
    match member(object, "auth", Value::as_str)? {
        None | Some("basic") => Some(client),
        Some("body") => Some(client.set_auth_type(AuthType::RequestBody)),
        Some(_) => None,
    }
}

fn read_reply(value: &Value) -> Option<Reply> {
    let object = value.as_object()?;
    if let Some(fail) = object.get("fail") {
        return if *fail == Value::Bool(true) { Some(Reply::Fail) } else { None };
    }
    let status = object.get("status")?.as_u64().filter(|it| (100..=999).contains(it))?;
    Some(Reply::Answer {
        status: StatusCode::from_u16(status as u16).ok()?,
        content_type: member(object, "content_type", |value| HeaderValue::from_str(value.as_str()?).ok())?,
        body: text(object, "body")?.into_bytes(),
    })
}

fn read_command(name: &str, params: &Members) -> Option<Command> {
    Some(match name {
        "code" => Command::Code {
            code: text(params, "code")?,
            verifier: verifier(params)?,
            redirect: url!(params, "redirect", RedirectUrl)?,
        },
        "refresh" => Command::Refresh { token: text(params, "refresh_token")? },
        "password" => Command::Password { username: text(params, "username")?, password: text(params, "password")? },
        "client_credentials" => Command::ClientCredentials,
        "introspect" => Command::Introspect { token: text(params, "token")?, hint: member(params, "hint", text_of)? },
        "revoke" => Command::Revoke {
            token: text(params, "token")?,
            is_refresh: match member(params, "kind", Value::as_str)? {
                None | Some("access") => false,
                Some("refresh") => true,
                Some(_) => return None,
            },
        },
        "device_authorization" => Command::DeviceAuthorization,
        "device_poll" => Command::DevicePoll {
            device: match params.get("device")? {
                it @ Value::Object(_) => serde_json::from_value(it.clone()).ok()?,
                _ => return None,
            },
            max_polls: params.get("max_polls")?.as_u64().filter(|it| *it > 0)?,
            timeout: member(params, "timeout", Value::as_u64)?,
            cap: member(params, "cap", Value::as_u64)?,
        },
        "authorize" => Command::Authorize {
            state: text(params, "state")?,
            verifier: verifier(params)?,
            redirect: url!(params, "redirect", RedirectUrl)?,
            response_type: member(params, "response_type", text_of)?,
        },
        _ => return None,
    })
}

fn read_script(bytes: &[u8]) -> Option<Script> {
    let value: Value = serde_json::from_slice(bytes).ok()?;
    let script = value.as_object()?;
    let (command, nothing) = (text(script, "command")?, Map::new());
    let params = member(script, "params", Value::as_object)?.unwrap_or(&nothing);
    let has_scopes = !matches!(command.as_str(), "code" | "introspect" | "revoke" | "device_poll");
    Some(Script {
        client: read_client(script.get("client")?.as_object()?)?,
        command: read_command(&command, params)?,
        scopes: if has_scopes { list(params, "scopes", text_of)? } else { Vec::new() },
        extra: list(params, "extra", pair)?,
        replies: list(script, "replies", read_reply)?,
        readings: list(script, "readings", |value| value.as_i64().filter(|it| READINGS.contains(it)))?,
    })
}

// The world: a scripted client, clock and sleep, and the lines.

#[derive(Debug)]
struct ScriptedFailure;

impl Display for ScriptedFailure {
    fn fmt(&self, f: &mut fmt::Formatter<'_>) -> fmt::Result {
        f.write_str("scripted failure")
    }
}

impl std::error::Error for ScriptedFailure {}

/// By this panic the sleep function leaves the crate's poll, which has no limit of requests.
struct PollLimit;

fn quoted(text: &str) -> String {
    serde_json::to_string(text).expect("a text is written")
}

struct World<'s> {
    lines: RefCell<String>,
    calls: Cell<usize>,
    sleeps: Cell<u64>,
    replies: &'s [Reply],
}

impl World<'_> {
    fn line(&self, line: fmt::Arguments<'_>) {
        writeln!(self.lines.borrow_mut(), "{line}").expect("a text grows");
    }

    fn call(&self, request: HttpRequest) -> Result<HttpResponse, ScriptedFailure> {
        self.show_request(&request);
        let at = self.calls.replace(self.calls.get() + 1);
        match self.replies.get(at) {
            None | Some(Reply::Fail) => Err(ScriptedFailure),
            Some(Reply::Answer { status, content_type, body }) => {
                let mut response = Response::new(body.clone());
                *response.status_mut() = *status;
                if let Some(value) = content_type {
                    response.headers_mut().insert(CONTENT_TYPE, value.clone());
                }
                Ok(response)
            }
        }
    }

    fn sleep(&self, time: Duration, max_polls: u64) {
        let number = self.sleeps.get() + 1;
        self.sleeps.set(number);
        if number >= max_polls {
            resume_unwind(Box::new(PollLimit));
        }
        self.line(format_args!("sleep {}.{:09}", time.as_secs(), time.subsec_nanos()));
    }

    fn show_request(&self, request: &HttpRequest) {
        let headers = request.headers();
        let credentials = headers.get(AUTHORIZATION);
        self.line(format_args!("request {} {}", request.method(), request.uri()));
        match credentials {
            None => self.line(format_args!("authorization none")),
            Some(value) => self.line(format_args!("authorization {}", String::from_utf8_lossy(value.as_bytes()))),
        }
        let as_wanted = headers.len() == 2 + usize::from(credentials.is_some())
            && headers.get(ACCEPT).is_some_and(|it| it == "application/json")
            && headers.get(CONTENT_TYPE).is_some_and(|it| it == "application/x-www-form-urlencoded");
        if !as_wanted {
            self.line(format_args!("other headers {headers:?}"));
        }
        self.line(format_args!("body {}", quoted(&String::from_utf8_lossy(request.body()))));
        match credentials.and_then(|value| basic(value.as_bytes())) {
            None => self.line(format_args!("basic none")),
            Some((identifier, secret)) => {
                self.line(format_args!("basic {} {}", quoted(&identifier), quoted(&secret)));
            }
        }
        for (name, value) in form_urlencoded::parse(request.body()) {
            self.line(format_args!("pair {} {}", quoted(&name), quoted(&value)));
        }
    }
}

// What a server reads: these only decode, and share no code with the crate's encoder.

fn form_decoded(bytes: &[u8]) -> String {
    let spaced: Vec<u8> = bytes.iter().map(|byte| if *byte == b'+' { b' ' } else { *byte }).collect();
    let decoded: Vec<u8> = percent_encoding::percent_decode(&spaced).collect();
    String::from_utf8_lossy(&decoded).into_owned()
}

fn basic(value: &[u8]) -> Option<(String, String)> {
    let plain = BASE64_STANDARD.decode(value.strip_prefix(b"Basic ")?).ok()?;
    let colon = plain.iter().position(|byte| *byte == b':')?;
    Some((form_decoded(&plain[..colon]), form_decoded(&plain[colon + 1..])))
}

// The run.

enum Fault<TE: ErrorResponse + 'static> {
    Configuration(ConfigurationError),
    Request(RequestTokenError<ScriptedFailure, TE>),
}

impl<TE: ErrorResponse + 'static> From<ConfigurationError> for Fault<TE> {
    fn from(error: ConfigurationError) -> Self {
        Fault::Configuration(error)
    }
}

impl<TE: ErrorResponse + 'static> From<RequestTokenError<ScriptedFailure, TE>> for Fault<TE> {
    fn from(error: RequestTokenError<ScriptedFailure, TE>) -> Self {
        Fault::Request(error)
    }
}

/// Writes the answer of a run: its exit status.
fn show<TE: ErrorResponse + 'static>(world: &World, answer: Result<Value, Fault<TE>>) -> i32 {
    match answer {
        Ok(value) => {
            world.line(format_args!("answer ok {value}"));
            return 0;
        }
        Err(Fault::Configuration(error)) => world.line(format_args!("answer fault {}", quoted(&error.to_string()))),
        Err(Fault::Request(error)) => match &error {
            RequestTokenError::Parse(inner, _) => {
                let path = inner.path().to_string();
                let path = if path == "." { "" } else { &path };
                world.line(format_args!("answer fault {} {} ?", quoted(&error.to_string()), quoted(path)));
            }
            _ => world.line(format_args!("answer fault {}", quoted(&error.to_string()))),
        },
    }
    1
}

fn value<T: serde::Serialize>(answer: T) -> Value {
    serde_json::to_value(answer).expect("an answer is written")
}

fn scopes(script: &Script) -> impl Iterator<Item = Scope> + '_ {
    script.scopes.iter().map(|it| Scope::new(it.clone()))
}

macro_rules! with_extra {
    ($request:expr, $script:expr) => {{
        let mut request = $request;
        for (name, value) in &$script.extra {
            request = request.add_extra_param(name.as_str(), value.as_str());
        }
        request
    }};
}

/// The requests that are answered by a token.
fn ask_for_token(script: &Script, world: &World) -> Result<Value, Fault<BasicErrorResponse>> {
    let (client, http) = (&script.client, |request: HttpRequest| world.call(request));
    let answer: BasicTokenResponse = match &script.command {
        Command::Code { code, verifier, redirect } => {
            let mut request = client.exchange_code(AuthorizationCode::new(code.clone()))?;
            if let Some(verifier) = verifier {
                request = request.set_pkce_verifier(PkceCodeVerifier::new(verifier.clone()));
            }
            if let Some(redirect) = redirect {
                request = request.set_redirect_uri(Cow::Borrowed(redirect));
            }
            with_extra!(request, script).request(&http)?
        }
        Command::Refresh { token } => {
            let token = RefreshToken::new(token.clone());
            with_extra!(client.exchange_refresh_token(&token)?.add_scopes(scopes(script)), script).request(&http)?
        }
        Command::Password { username, password } => {
            let username = ResourceOwnerUsername::new(username.clone());
            let password = ResourceOwnerPassword::new(password.clone());
            let request = client.exchange_password(&username, &password)?.add_scopes(scopes(script));
            with_extra!(request, script).request(&http)?
        }
        _ => {
            let request = client.exchange_client_credentials()?.add_scopes(scopes(script));
            with_extra!(request, script).request(&http)?
        }
    };
    Ok(value(answer))
}

fn introspect(
    script: &Script,
    world: &World,
    token: &str,
    hint: Option<&str>,
) -> Result<Value, Fault<BasicErrorResponse>> {
    let token = AccessToken::new(token.to_string());
    let mut request = script.client.introspect(&token)?;
    if let Some(hint) = hint {
        request = request.set_token_type_hint(hint);
    }
    let answer: BasicTokenIntrospectionResponse =
        with_extra!(request, script).request(&|request: HttpRequest| world.call(request))?;
    Ok(value(answer))
}

fn revoke(
    script: &Script,
    world: &World,
    token: &str,
    is_refresh: bool,
) -> Result<Value, Fault<BasicRevocationErrorResponse>> {
    let token: StandardRevocableToken = match is_refresh {
        true => RefreshToken::new(token.to_string()).into(),
        false => AccessToken::new(token.to_string()).into(),
    };
    with_extra!(script.client.revoke_token(token)?, script).request(&|request: HttpRequest| world.call(request))?;
    Ok(Value::Null)
}

fn ask_for_codes(script: &Script, world: &World) -> Result<Value, Fault<BasicErrorResponse>> {
    let request = script.client.exchange_device_code()?.add_scopes(scopes(script));
    let answer: StandardDeviceAuthorizationResponse =
        with_extra!(request, script).request(&|request: HttpRequest| world.call(request))?;
    Ok(value(answer))
}

fn poll(
    script: &Script,
    world: &World,
    device: &StandardDeviceAuthorizationResponse,
    max_polls: u64,
    timeout: Option<u64>,
    cap: Option<u64>,
) -> Result<Value, Fault<DeviceCodeErrorResponse>> {
    let next = AtomicUsize::new(0);
    let clock = || -> DateTime<Utc> {
        let at = next.fetch_add(1, Ordering::Relaxed);
        let seconds = script.readings.get(at).or(script.readings.last()).copied().unwrap_or(0);
        Utc.timestamp_opt(seconds, 0).unwrap()
    };
    let request =
        script.client.exchange_device_access_token::<EmptyExtraDeviceAuthorizationFields>(device)?;
    let mut request = with_extra!(request, script);
    if let Some(cap) = cap {
        request = request.set_max_backoff_interval(Duration::from_secs(cap));
    }
    let answer: BasicTokenResponse = request.set_time_fn(&clock).request(
        &|request: HttpRequest| world.call(request),
        &|time| world.sleep(time, max_polls),
        timeout.map(Duration::from_secs),
    )?;
    Ok(value(answer))
}

/// A poll, which the sleep function leaves by a panic at the limit of requests.
fn poll_to_limit(
    run: impl FnOnce() -> Result<Value, Fault<DeviceCodeErrorResponse>>,
) -> Result<Value, Fault<DeviceCodeErrorResponse>> {
    match catch_unwind(AssertUnwindSafe(run)) {
        Err(panic) if panic.is::<PollLimit>() => {
            Err(Fault::Request(RequestTokenError::Other("polling limit reached".to_string())))
        }
        Err(panic) => resume_unwind(panic),
        Ok(answer) => answer,
    }
}

fn authorize(
    script: &Script,
    world: &World,
    state: &str,
    verifier: Option<&str>,
    redirect: Option<&RedirectUrl>,
    response_type: Option<&str>,
) -> Result<Value, Fault<BasicErrorResponse>> {
    let mut request =
        script.client.authorize_url(|| CsrfToken::new(state.to_string()))?.add_scopes(scopes(script));
    if let Some(verifier) = verifier {
        let verifier = PkceCodeVerifier::new(verifier.to_string());
        request = request.set_pkce_challenge(PkceCodeChallenge::from_code_verifier_sha256(&verifier));
    }
    if let Some(redirect) = redirect {
        request = request.set_redirect_uri(Cow::Borrowed(redirect));
    }
    if let Some(response_type) = response_type {
        request = request.set_response_type(&ResponseType::new(response_type.to_string()));
    }
    let (url, state) = with_extra!(request, script).url();
    world.line(format_args!("url {}", quoted(url.as_str())));
    Ok(Value::String(state.into_secret()))
}

fn run_in(script: &Script, world: &World) -> i32 {
    match &script.command {
        Command::Introspect { token, hint } => show(world, introspect(script, world, token, hint.as_deref())),
        Command::Revoke { token, is_refresh } => show(world, revoke(script, world, token, *is_refresh)),
        Command::DeviceAuthorization => show(world, ask_for_codes(script, world)),
        Command::DevicePoll { device, max_polls, timeout, cap } => {
            show(world, poll_to_limit(|| poll(script, world, device, *max_polls, *timeout, *cap)))
        }
        Command::Authorize { state, verifier, redirect, response_type } => {
            let (verifier, response_type) = (verifier.as_deref(), response_type.as_deref());
            show(world, authorize(script, world, state, verifier, redirect.as_ref(), response_type))
        }
        _ => show(world, ask_for_token(script, world)),
    }
}

/// The lines of a script's run and its exit status.
fn run(bytes: &[u8]) -> (String, i32) {
    // The crate reads a device's response while the script is judged, so a panic there is shown too.
    let script = match catch_unwind(AssertUnwindSafe(|| read_script(bytes))) {
        Ok(Some(script)) => script,
        Ok(None) => return ("bad script\n".to_string(), 2),
        Err(_) => return ("answer panic \"while the script is read\"\n".to_string(), 101),
    };
    let world =
        World { lines: RefCell::default(), calls: Cell::new(0), sleeps: Cell::new(0), replies: &script.replies };
    let status = catch_unwind(AssertUnwindSafe(|| run_in(&script, &world))).unwrap_or_else(|panic| {
        let text = panic.downcast_ref::<String>().map(String::as_str).or(panic.downcast_ref::<&str>().copied());
        world.line(format_args!("answer panic {}", quoted(text.unwrap_or("unknown"))));
        101
    });
    (world.lines.into_inner(), status)
}

fn main() -> std::io::Result<()> {
    // A panic is shown as a line.
    std::panic::set_hook(Box::new(|_| {}));
    let (mut input, mut output) = (Vec::new(), std::io::BufWriter::new(std::io::stdout().lock()));
    std::io::stdin().lock().read_to_end(&mut input)?;
    for script in input.strip_suffix(b"\n").unwrap_or(&input).split(|byte| *byte == b'\n') {
        let (lines, status) = run(script);
        write!(output, "{lines}exit {status}\n\n")?;
    }
    output.flush()
}
