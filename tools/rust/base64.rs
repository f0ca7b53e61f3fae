//! The part of `base64` 0.22 that the crate `oauth2` and the driver call, over `base64` 0.13.

pub use base64_013::DecodeError;

pub trait Engine {
    fn encode<T: AsRef<[u8]>>(&self, input: T) -> String;
    fn decode<T: AsRef<[u8]>>(&self, input: T) -> Result<Vec<u8>, DecodeError>;
}

pub struct GeneralPurpose(base64_013::Config);

impl Engine for GeneralPurpose {
    fn encode<T: AsRef<[u8]>>(&self, input: T) -> String {
        base64_013::encode_config(input, self.0)
    }

    fn decode<T: AsRef<[u8]>>(&self, input: T) -> Result<Vec<u8>, DecodeError> {
        base64_013::decode_config(input, self.0)
    }
}

pub const BASE64_STANDARD: GeneralPurpose = GeneralPurpose(base64_013::STANDARD);
pub const BASE64_URL_SAFE_NO_PAD: GeneralPurpose = GeneralPurpose(base64_013::URL_SAFE_NO_PAD);

pub mod prelude {
    pub use crate::{Engine, BASE64_STANDARD, BASE64_URL_SAFE_NO_PAD};
}
