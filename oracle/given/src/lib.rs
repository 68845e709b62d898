//! The crate `jxl_color` that `build.rs` made of the given files and the shims.

extern crate jxl_color;

pub use jxl_color::*;

#[cfg(test)]
#[path = "../sha256.rs"]
mod sha256;

#[cfg(test)]
mod tests {
    use super::sha256;

    /// FIPS 180-4's examples: no block, one, two.
    #[test]
    fn digests() {
        let of = |text: &str| sha256::hex(text.as_bytes());
        assert_eq!(
            of(""),
            "e3b0c44298fc1c149afbf4c8996fb92427ae41e4649b934ca495991b7852b855"
        );
        assert_eq!(
            of("abc"),
            "ba7816bf8f01cfea414140de5dae2223b00361a396177a9cb410ff61f20015ad"
        );
        assert_eq!(
            of("abcdbcdecdefdefgefghfghighijhijkijkljklmklmnlmnomnopnopq"),
            "248d6a61d20638b8e5c026930c3e6039a33ce45964ff2167f6ecedd419db06c1"
        );
    }
}
