//! What made an archive, or verifies it: the engine, its library and the kit that proved that library.

/// Versions as the page has them.
#[derive(Clone, Debug, PartialEq, Eq, PartialOrd, Ord)]
pub struct Maker {
    /// The version and the commit whose crates were proved.
    pub engine: String,
    /// SHA-256 of the library that ran it; form 1 does not say.
    pub library: String,
    /// What `rt version` said when the library was proved.
    pub kit: String,
}

/// How many digits of a library's SHA-256 tell it from another for people.
const DIGITS: usize = 12;

impl Maker {
    /// This program.
    pub fn this() -> Maker {
        Maker {
            engine: format!("{}, {}", env!("CARGO_PKG_VERSION"), env!("COVRITH_COMMIT")),
            library: env!("COVRITH_LIBRARY").to_string(),
            kit: env!("COVRITH_KIT").to_string(),
        }
    }

    /// In some words.
    pub fn words(&self) -> String {
        match self.library.get(..DIGITS) {
            Some(library) => format!("{} (library {library}..)", self.engine),
            None => self.engine.clone(),
        }
    }

    /// "made by X, verified by Y", where that is not the same.
    pub fn beside(&self, verifier: &Maker) -> Option<String> {
        (self != verifier).then(|| {
            let (made, verified) = (self.words(), verifier.words());
            match made == verified {
                true => format!(
                    "made by {made}, kit {}, verified by {verified}, kit {}",
                    self.kit, verifier.kit
                ),
                false => format!("made by {made}, verified by {verified}"),
            }
        })
    }
}
