//! For `tpmless-tpm2`: the algorithms by id, four as document 01 says, and the names that `extend`, whose calls are cut, has.

#[derive(Debug, Clone, Copy)]
pub enum DigestAlgorithm {
    Sha1 = 0x0004,
    Sha256 = 0x000B,
    Sha384 = 0x000C,
    Sha512 = 0x000D,
}

impl DigestAlgorithm {
    pub fn from_tpm_alg_id(id: u16) -> Option<Self> {
        let all = [Self::Sha1, Self::Sha256, Self::Sha384, Self::Sha512];
        all.into_iter().find(|&one| one as u16 == id)
    }

    pub fn openssl_md(&self) -> openssl::hash::MessageDigest {
        openssl::hash::MessageDigest
    }
}

impl serde::Serialize for DigestAlgorithm {
    fn serialize<S: serde::Serializer>(&self, out: S) -> Result<S::Ok, S::Error> {
        out.serialize_str(&format!("{self:?}"))
    }
}

#[derive(Debug)]
pub struct Error;

impl std::fmt::Display for Error {
    fn fmt(&self, out: &mut std::fmt::Formatter<'_>) -> std::fmt::Result {
        out.write_str("tpmless-tpm2")
    }
}

impl std::error::Error for Error {}

#[derive(Debug)]
pub struct PcrExtender;

impl PcrExtender {
    pub fn extend_digest(&mut self, _: u32, _: DigestAlgorithm, _: &[u8]) -> Result<(), Error> {
        unreachable!("a path that was cut")
    }
}

pub struct PcrExtenderBuilder;

impl PcrExtenderBuilder {
    pub fn new() -> Self {
        PcrExtenderBuilder
    }

    pub fn add_digest_method(self, _: DigestAlgorithm) -> Self {
        self
    }

    pub fn build(self) -> PcrExtender {
        PcrExtender
    }
}
