//! `chrono` 0.4.23, but for how `serde::ts_seconds_option` reads a number past `i64::MAX`: 0.4.23
//! wraps it, and 0.4.31, which the crate `oauth2` asks for, refuses it.

pub use chrono_0423::*;

pub mod serde {
    pub use chrono_0423::serde::*;

    pub mod ts_seconds_option {
        use crate::{DateTime, TimeZone, Utc};
        use serde::de::{Deserialize, Deserializer, Error};

        pub use chrono_0423::serde::ts_seconds_option::serialize;

        pub fn deserialize<'de, D: Deserializer<'de>>(input: D) -> Result<Option<DateTime<Utc>>, D::Error> {
            let Some(seconds) = Option::<i64>::deserialize(input)? else {
                return Ok(None);
            };
            let time = Utc.timestamp_opt(seconds, 0).single();
            time.map(Some).ok_or_else(|| D::Error::custom("no time has so many seconds"))
        }
    }
}
