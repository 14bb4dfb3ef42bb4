//! The version of this crate, which is that of the header and its archive.

/// The version of this crate, and of the header that it was made from: as long as its first number is 0, the second goes up
/// where a program has to be compiled anew or would get other answers.
pub const VERSION: &str = env!("CARGO_PKG_VERSION");

#[cfg(test)]
mod tests {
    use crate::raw;

    #[test]
    fn the_version_is_the_headers() {
        let (major, minor, patch) = (
            raw::ENERGY_VERSION_MAJOR,
            raw::ENERGY_VERSION_MINOR,
            raw::ENERGY_VERSION_PATCH,
        );
        assert_eq!(super::VERSION, format!("{major}.{minor}.{patch}"));
    }
}
