//! The archive is of this crate's version.

#[test]
fn archive_is_of_this_version() {
    let number = |text: &str| text.parse::<u64>().unwrap();
    let major = number(env!("CARGO_PKG_VERSION_MAJOR"));
    let minor = number(env!("CARGO_PKG_VERSION_MINOR"));
    let patch = number(env!("CARGO_PKG_VERSION_PATCH"));
    // SAFETY: asks for nothing.
    let archive = unsafe { scopes::sys::scopes_version() };
    assert_eq!(archive, (major * 1_000 + minor) * 1_000 + patch);
}
