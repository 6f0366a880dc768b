//! The width of the terminal that standard output is.

/// Characters in a line of the terminal, if it tells them.
#[cfg(target_os = "linux")]
pub fn width() -> Option<usize> {
    use std::ffi::{c_int, c_ulong};

    /// Asks a terminal for its size.
    const TIOCGWINSZ: c_ulong = 0x5413;
    const STANDARD_OUTPUT: c_int = 1;

    #[repr(C)]
    #[derive(Default)]
    struct Size {
        rows: u16,
        columns: u16,
        pixels: [u16; 2],
    }

    extern "C" {
        fn ioctl(file: c_int, request: c_ulong, ...) -> c_int;
    }

    let mut size = Size::default();
    // SAFETY: this request writes one such struct, and nothing if it fails.
    let answer = unsafe { ioctl(STANDARD_OUTPUT, TIOCGWINSZ, &mut size as *mut Size) };
    (answer == 0 && size.columns > 0).then_some(size.columns.into())
}

/// Characters in a line of the terminal, if it tells them.
#[cfg(not(target_os = "linux"))]
pub fn width() -> Option<usize> {
    None
}
