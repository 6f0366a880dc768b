//! The library before a change and the present one, linked alike, if `QONVESHIR_BEFORE` names the
//! archive of the former when this program is built.

use interface::Library;

/// The sum of the archive before, if this program holds it.
pub const SUM: Option<&str> = option_env!("QONVESHIR_BEFORE_SUM");

/// The library before and the present one, if this program holds them and both have a call.
#[cfg(before)]
pub fn having(call: &str) -> Option<[&'static dyn Library; 2]> {
    let both: [&dyn Library; 2] = [&held::Before, &held::Now];
    held::has(call).then_some(both)
}

#[cfg(not(before))]
pub fn having(_call: &str) -> Option<[&'static dyn Library; 2]> {
    None
}

#[cfg(before)]
mod held {
    include!(concat!(env!("OUT_DIR"), "/calls.rs"));

    /// Whether the library before has a call.
    pub fn has(call: &str) -> bool {
        CALLS.contains(&call)
    }

    proved::library!(
        /// The library before a change.
        Before,
        "before_"
    );
    proved::library!(
        /// The present library.
        Now,
        "now_"
    );
}
