//! Gets an access token by client credentials (RFC 6749, 4.4), and prints it:
//!
//!     RUSTFLAGS="-L FOLDER" cargo build   # the folder of liblifecrib.so
//!     CLIENT_SECRET=bbb target/debug/token https://as.example/token aaa

use serde_json::{json, Value};
use std::io::Read;
use std::process::ExitCode;
use std::time::Duration;

/// The most bytes of a reply's body.
const MOST_BYTES: u64 = 1 << 20;
/// The most time of an exchange.
const MOST_TIME: Duration = Duration::from_secs(30);
const NO_MEMORY: i32 = 3;

#[link(name = "lifecrib")]
extern "C" {
    fn lifecrib_run(
        script: *const u8,
        script_length: usize,
        output: *mut u8,
        output_length: usize,
        length: *mut usize,
    ) -> i32;
}

/// The result of a script's run, by the library.
fn call(script: &[u8]) -> (i32, Vec<u8>) {
    let mut output = vec![0; 8192];
    loop {
        let mut length = 0;
        // SAFETY: the slices have as many bytes as their lengths say, and no two of the three overlap.
        let status = unsafe {
            lifecrib_run(
                script.as_ptr(),
                script.len(),
                output.as_mut_ptr(),
                output.len(),
                &mut length,
            )
        };
        if length <= output.len() {
            output.truncate(length);
            return (status, output);
        }
        output = vec![0; length]; // it did not fit
    }
}

/// The events of a script's run.
fn run(script: &Value) -> Result<Vec<Value>, String> {
    let (status, output) = call(script.to_string().as_bytes());
    if status == NO_MEMORY {
        return Err("out of memory".into());
    }
    let mut result: Value = serde_json::from_slice(&output).map_err(|e| e.to_string())?;
    match result["events"].take() {
        Value::Array(events) if !events.is_empty() => Ok(events),
        _ => Err("a result without events".into()),
    }
}

fn base64(bytes: &[u8]) -> String {
    const DIGITS: &[u8] = b"ABCDEFGHIJKLMNOPQRSTUVWXYZabcdefghijklmnopqrstuvwxyz0123456789+/";
    let digit_of = |three: &[u8], at: usize| {
        let bits = (0..3).fold(0, |bits, next| {
            bits << 8 | u32::from(*three.get(next).unwrap_or(&0))
        });
        match at <= three.len() {
            true => char::from(DIGITS[(bits >> (18 - 6 * at) & 63) as usize]),
            false => '=',
        }
    };
    let digits_of = |three| (0..4).map(move |at| digit_of(three, at));
    bytes.chunks(3).flat_map(digits_of).collect()
}

/// Whether no other machine can read what goes to a URL: it is https, or one of this machine.
fn is_private(url: &str) -> bool {
    let is_port = |it: char| it == ':' || it.is_ascii_digit();
    match url.strip_prefix("http://127.0.0.1") {
        Some(rest) => rest.trim_start_matches(is_port).starts_with('/'),
        None => url.starts_with("https://"),
    }
}

/// Sends a request: the reply as an entry of a script's `replies`.
fn reply_to(request: &Value) -> Result<Value, String> {
    let text = |value: &Value| value.as_str().unwrap_or_default().to_string();
    if !is_private(&text(&request["url"])) {
        return Err("not sent: the URL is not https".into());
    }
    let agent = ureq::AgentBuilder::new()
        .redirects(0)
        .timeout(MOST_TIME)
        .build();
    let mut made = agent.request(&text(&request["method"]), &text(&request["url"]));
    for header in request["headers"].as_array().into_iter().flatten() {
        made = made.set(&text(&header[0]), &text(&header[1]));
    }
    let sent = match request["method"] == "POST" {
        true => made.send_string(&text(&request["body"])),
        false => made.call(),
    };
    let reply = match sent {
        Ok(reply) | Err(ureq::Error::Status(_, reply)) => reply,
        Err(fault) => return Err(fault.to_string()),
    };
    let mut found = json!({"status": reply.status()});
    if let Some(value) = reply.header("content-type") {
        found["content_type"] = value.into();
    }
    let mut body = Vec::new();
    let mut reader = reply.into_reader().take(MOST_BYTES + 1);
    reader.read_to_end(&mut body).map_err(|e| e.to_string())?;
    if body.len() as u64 > MOST_BYTES {
        return Err("the reply is too long".into());
    }
    found["body_base64"] = base64(&body).into();
    Ok(found)
}

/// Runs a script, sends each request that it has no reply to, and returns the last event of the run
/// that needs none.
fn last_event(mut script: Value) -> Result<Value, String> {
    let mut replies = Vec::new();
    loop {
        script["replies"] = replies.clone().into();
        let events = run(&script)?;
        let exchanges = events.iter().filter(|it| it["event"] == "exchange");
        match exchanges.clone().nth(replies.len()) {
            None => return Ok(events[events.len() - 1].clone()),
            Some(exchange) => {
                replies.push(reply_to(&exchange["request"]).unwrap_or_else(|fault| {
                    eprintln!("token: {fault}");
                    json!({"fail": true})
                }))
            }
        }
    }
}

fn token(url: &str, id: &str, secret: &str) -> Result<String, String> {
    let event = last_event(json!({
        "result": "json",
        "command": "client_credentials",
        "client": {"token_url": url, "id": id, "secret": secret},
    }))?;
    match event["answer"]["access_token"].as_str() {
        Some(found) => Ok(found.into()),
        None => Err(event["text"].as_str().unwrap_or("bad script").into()),
    }
}

fn main() -> ExitCode {
    let words: Vec<String> = std::env::args().collect();
    let (Ok(secret), [_, url, id]) = (std::env::var("CLIENT_SECRET"), words.as_slice()) else {
        eprintln!("usage: CLIENT_SECRET=SECRET token TOKEN_URL CLIENT");
        return ExitCode::FAILURE;
    };
    match token(url, id, &secret) {
        Ok(found) => {
            println!("{found}");
            ExitCode::SUCCESS
        }
        Err(fault) => {
            eprintln!("token: {fault}");
            ExitCode::FAILURE
        }
    }
}
