//! How files are judged and spelled.

/// Under which profile files are judged, and in which edition they are spelled. The first two are what is taken where nothing is said:
/// notices refuse nothing, and leading zeros stay.
///
/// ```
/// use gedtool::Settings;
///
/// let settings = Settings::new().strict().second();
/// assert_ne!(settings, Settings::default());
/// assert_eq!(settings, Settings::new().second().strict());
/// ```
#[derive(Debug, Clone, Copy, Default, PartialEq, Eq, Hash)]
pub struct Settings {
    strict: bool,
    second: bool,
}

impl Settings {
    /// The lenient profile and the first edition, as `Settings::default()`.
    pub const fn new() -> Settings {
        Settings { strict: false, second: false }
    }

    /// The same with the strict profile, by which each notice is a fault.
    #[must_use]
    pub const fn strict(self) -> Settings {
        Settings { strict: true, ..self }
    }

    /// The same with the second edition, in which dates, ages and counts have no leading zeros.
    #[must_use]
    pub const fn second(self) -> Settings {
        Settings { second: true, ..self }
    }

    /// The number by which the library is told of them.
    pub(crate) fn bits(self) -> u32 {
        u32::from(self.strict) | u32::from(self.second) << 1
    }
}
