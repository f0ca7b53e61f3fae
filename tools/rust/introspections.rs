//! Reads access tokens from standard input, one a line, and prints of each whether it is active, by
//! ureq. The arguments are the introspection endpoint, the client, and `kept` for connections from the
//! agent's pool or `each` for one connection a request. The environment has CLIENT_SECRET.

use serde::Deserialize;
use std::io::{self, BufRead, Write};
use ureq::{Agent, AgentBuilder};

/// RFC 7662, 2.2.
#[derive(Deserialize)]
#[allow(dead_code)]
struct Introspection {
    active: bool,
    scope: Option<String>,
    client_id: Option<String>,
    username: Option<String>,
    token_type: Option<String>,
    exp: Option<i64>,
    iat: Option<i64>,
    nbf: Option<i64>,
    sub: Option<String>,
    aud: Option<serde_json::Value>,
    iss: Option<String>,
    jti: Option<String>,
}

fn introspect(agent: &Agent, url: &str, basic: &str, closes: bool, token: &str) -> Introspection {
    let mut request = agent
        .post(url)
        .set("Accept", "application/json")
        .set("Authorization", basic);
    if closes {
        request = request.set("Connection", "close");
    }
    let response = request.send_form(&[("token", token)]).unwrap();
    let mut body = Vec::new();
    response.into_reader().read_to_end(&mut body).unwrap();
    serde_json::from_slice(&body).unwrap()
}

fn main() {
    let arguments: Vec<String> = std::env::args().skip(1).collect();
    let [url, id, manner] = &arguments[..] else { panic!("URL CLIENT kept|each") };
    let closes = manner == "each";
    let secret = std::env::var("CLIENT_SECRET").unwrap();
    let basic = format!("Basic {}", base64::encode(format!("{id}:{secret}")));
    let mut builder = AgentBuilder::new();
    if closes {
        builder = builder.max_idle_connections(0);
    }
    let agent = builder.build();
    for line in io::stdin().lock().lines() {
        let found = introspect(&agent, url, &basic, closes, &line.unwrap());
        let said = if found.active { "active" } else { "inactive" };
        writeln!(io::stdout(), "{said}").unwrap();
    }
}
