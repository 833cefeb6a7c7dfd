//! For `uuid` 0.8 (Debian has 1): sixteen bytes, in the order in which they are printed.

#[derive(Debug)]
pub struct Error;

impl std::fmt::Display for Error {
    fn fmt(&self, out: &mut std::fmt::Formatter<'_>) -> std::fmt::Result {
        out.write_str("uuid")
    }
}

impl std::error::Error for Error {}

#[derive(Debug)]
pub struct Uuid([u8; 16]);

impl Uuid {
    pub fn from_bytes(bytes: [u8; 16]) -> Self {
        Uuid(bytes)
    }

    /// The numbers are stored with their highest byte first.
    pub fn from_fields(first: u32, second: u16, third: u16, last: &[u8]) -> Result<Self, Error> {
        let last: [u8; 8] = last.try_into().map_err(|_| Error)?;
        let number = (first as u64) << 32 | (second as u64) << 16 | third as u64;
        Ok(Uuid(((number as u128) << 64 | u64::from_be_bytes(last) as u128).to_be_bytes()))
    }

    pub fn as_bytes(&self) -> &[u8; 16] {
        &self.0
    }
}

impl serde::Serialize for Uuid {
    fn serialize<S: serde::Serializer>(&self, out: S) -> Result<S::Ok, S::Error> {
        out.serialize_str(&format!("{:?}", self.0))
    }
}
