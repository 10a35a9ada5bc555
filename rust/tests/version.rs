//! The crate, the C header and so the installed library have one version, by which the build script asks for the library.

const HEADER: &str = include_str!("../../include/aspeyruni.h");

#[test]
fn the_crate_has_the_headers_version() {
    let version = HEADER
        .lines()
        .find_map(|line| line.strip_prefix("#define ASPEYRUNI_VERSION "))
        .expect("include/aspeyruni.h has a line `#define ASPEYRUNI_VERSION`");
    assert_eq!(version.trim().trim_matches('"'), env!("CARGO_PKG_VERSION"));
}
