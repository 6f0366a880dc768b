//! The call of a game, which has sheets in pairs and a number before its language.

/// Declares both forms of a game's call, and hands the parts of both sides on as slices.
#[doc(hidden)]
#[macro_export]
macro_rules! game {
    ($prefix:literal) => {
        fn play(
            &self,
            turns: u32,
            language: Language,
            loader: ::interface::Side,
            sender: ::interface::Side,
            goal: &[u8],
            record: &[u8],
            allowance: u32,
        ) -> Outcome {
            extern "C" {
                #[link_name = concat!($prefix, "qonveshir_play")]
                fn simple(
                    turns: u32,
                    table: *const u8,
                    _: usize,
                    loader_rules: *const u8,
                    _: usize,
                    loader_templates: *const u8,
                    _: usize,
                    sender_rules: *const u8,
                    _: usize,
                    sender_templates: *const u8,
                    _: usize,
                    goal: *const u8,
                    _: usize,
                    record: *const u8,
                    _: usize,
                    allowance: u32,
                ) -> Outcome;
                #[link_name = concat!($prefix, "qonveshir_play_in")]
                fn told(
                    turns: u32,
                    table: *const u8,
                    _: usize,
                    classes: *const u8,
                    _: usize,
                    loader_rules: *const u8,
                    _: usize,
                    loader_templates: *const u8,
                    _: usize,
                    sender_rules: *const u8,
                    _: usize,
                    sender_templates: *const u8,
                    _: usize,
                    goal: *const u8,
                    _: usize,
                    record: *const u8,
                    _: usize,
                    allowance: u32,
                ) -> Outcome;
            }
            let (table, [a, b]) = (language.table, [loader, sender]);
            match language.classes {
                None => unsafe {
                    simple(
                        turns,
                        table.as_ptr(),
                        table.len(),
                        a.rules.as_ptr(),
                        a.rules.len(),
                        a.templates.as_ptr(),
                        a.templates.len(),
                        b.rules.as_ptr(),
                        b.rules.len(),
                        b.templates.as_ptr(),
                        b.templates.len(),
                        goal.as_ptr(),
                        goal.len(),
                        record.as_ptr(),
                        record.len(),
                        allowance,
                    )
                },
                Some(classes) => unsafe {
                    told(
                        turns,
                        table.as_ptr(),
                        table.len(),
                        classes.as_ptr(),
                        classes.len(),
                        a.rules.as_ptr(),
                        a.rules.len(),
                        a.templates.as_ptr(),
                        a.templates.len(),
                        b.rules.as_ptr(),
                        b.rules.len(),
                        b.templates.as_ptr(),
                        b.templates.len(),
                        goal.as_ptr(),
                        goal.len(),
                        record.as_ptr(),
                        record.len(),
                        allowance,
                    )
                },
            }
        }
    };
}
