//! What this package was made from, as build.rs found it.

use std::fmt;

/// What made the tables: to be written beside them, so that another can make them again. What is not known is `unknown`.
///
/// ```
/// println!("{}", slider::IDENTITY); // slider 0.1.0 commit .. kit .. logic .. library-sha256 ..
/// ```
#[derive(Clone, Copy, Debug, PartialEq, Eq, Hash)]
#[non_exhaustive]
pub struct Identity {
    /// The package's version.
    pub version: &'static str,
    /// The repository's commit, with `+changes` where files differ from it.
    pub commit: &'static str,
    /// The kit that proved and compiled the library, and its logic, as `rt version` says them.
    pub kit: &'static str,
    /// SHA-256 of the archive libslider.a that is linked, in 64 hexadecimal digits: what `sha256sum` prints.
    pub library: &'static str,
}

/// This package's.
pub const IDENTITY: Identity = Identity {
    version: env!("CARGO_PKG_VERSION"),
    commit: env!("SLIDER_MADE_COMMIT"),
    kit: env!("SLIDER_MADE_KIT"),
    library: env!("SLIDER_MADE_LIBRARY"),
};

impl fmt::Display for Identity {
    fn fmt(&self, f: &mut fmt::Formatter) -> fmt::Result {
        let Identity { version, commit, kit, library } = self;
        write!(f, "slider {version} commit {commit} kit {kit} library-sha256 {library}")
    }
}
