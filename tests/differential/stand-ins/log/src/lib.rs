//! Stands in for `log`: a warning is not printed but kept, by file and line, until `take_warnings` asks for it.
//!
//! As with the real crate where no logger is set, a warning's words are type-checked and never put together.

use std::cell::Cell;

/// The file and the line of a warning.
pub type Place = (&'static str, u32);

/// The warnings since the last `take_warnings`, in order. More than four are counted, but not kept.
#[derive(Clone, Copy, Debug, Default)]
pub struct Warnings {
    pub count: usize,
    kept: [Place; 4],
}

impl Warnings {
    pub fn kept(&self) -> &[Place] {
        &self.kept[..self.count.min(self.kept.len())]
    }
}

const NONE: Warnings = Warnings {
    count: 0,
    kept: [("", 0); 4],
};

thread_local! {
    static WARNINGS: Cell<Warnings> = const { Cell::new(NONE) };
}

#[doc(hidden)]
pub fn keep(file: &'static str, line: u32) {
    WARNINGS.with(|cell| {
        let mut warnings = cell.get();
        if let Some(place) = warnings.kept.get_mut(warnings.count) {
            *place = (file, line);
        }
        warnings.count += 1;
        cell.set(warnings);
    });
}

/// This thread's warnings since the last call.
pub fn take_warnings() -> Warnings {
    WARNINGS.with(|cell| cell.replace(NONE))
}

#[macro_export]
macro_rules! warn {
    ($($words:tt)+) => {{
        if false {
            let _ = ::std::format_args!($($words)+);
        }
        $crate::keep(::std::file!(), ::std::line!());
    }};
}
