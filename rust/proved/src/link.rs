//! The declarations of `include/qonveshir.h` and their safe calls.

/// Makes a type whose calls are those of a linked library, whose symbols have a prefix.
#[macro_export]
macro_rules! library {
    ($(#[$doc:meta])* $name:ident, $prefix:literal) => {
        $(#[$doc])*
        #[derive(Clone, Copy, Debug, Default)]
        pub struct $name;

        // The edition, where the form `_in` is told it; inputs; numbers; a station and an output; what is
        // shown.
        $crate::calls! { $name, $prefix,
            match_one = qonveshir_match(
                edition; pattern: u8, record: u8; allowance; answer: u16) -> Outcome;
            next = qonveshir_next(
                edition; pattern: u8, record: u8, given: u16; allowance; answer: u16) -> Outcome;
            match_plain = qonveshir_match_plain(
                edition; pattern: u8, record: u8; ; answer: u16) -> Outcome;
            match_rules = qonveshir_match_rules(
                ; rules: u8, record: u8; allowance; answer: u16) -> Outcome;
            write_sheet = qonveshir_write_sheet(
                edition; records: u8, lengths: u16; ; output: u8) -> Outcome;
            check_rules = qonveshir_check_rules(; sheet: u8; ; ) -> Outcome;
            check_states = qonveshir_check_states(; sheet: u8; ; ) -> Outcome;
            cost = qonveshir_cost(edition; pattern: u8; ; ) -> Outcome;
            store = qonveshir_store(edition; record: u8; ; output: u8) -> Outcome;
            restore = qonveshir_restore(edition; stored: u8; ; output: u8) -> Outcome;
            splice_record = qonveshir_splice_record(; record: u8; ; output: u8) -> Outcome;
            splice_pattern = qonveshir_splice_pattern(; pattern: u8; ; output: u8) -> Outcome;
            apply = qonveshir_apply(
                edition; pattern: u8, template: u8, record: u8; allowance; output: u8) -> Written;
            look = qonveshir_look(
                edition; pattern: u8, template: u8, record: u8; allowance; ) -> Written;
            example = qonveshir_example(
                edition; pattern: u8; size, allowance; output: u8) -> Written;
            station_new = qonveshir_station_new(
                edition; record: u8; ; &mut station, records: u8) -> Outcome;
            station_apply = qonveshir_station_apply(
                edition; pattern: u8, template: u8; allowance; &mut station, records: u8) -> Written;
        }
    };
}

/// Declares the calls of a library in both forms, a slice as its pointer and its length, and hands
/// slices on: to the simple form where no class list is brought and the edition, where the call is
/// told it, is 1; else to the form `_in`.
#[doc(hidden)]
#[macro_export]
macro_rules! calls {
    ($name:ident, $prefix:literal, $($safe:ident = $call:ident(
        $($edition:ident)?; $($input:ident: $element:ty),*; $($number:ident),*;
        $(&mut $station:ident,)? $($output:ident: $written:ty)?
    ) -> $shown:ident;)*) => {
        const _: () = {
            use ::interface::{Edition, Labels, Language, Library, Outcome, Part, Written};

            // SAFETY, for each call: a slice is a valid pointer to as many elements as its length
            // says, a `&mut` slice or struct overlaps no other, and the library reads and writes
            // within the lengths and the struct alone.
            impl Library for $name {
                $(fn $safe(
                    &self,
                    language: Language,
                    $($input: &[$element],)*
                    $($number: u32,)*
                    $($station: &mut Labels,)?
                    $($output: &mut [$written])?
                ) -> $shown {
                    extern "C" {
                        #[link_name = concat!($prefix, stringify!($call))]
                        fn simple(
                            table: *const u8, _: usize,
                            $($input: *const $element, _: usize,)*
                            $($number: u32,)*
                            $($station: *mut Labels,)?
                            $($output: *mut $written, _: usize)?
                        ) -> $shown;
                        #[link_name = concat!($prefix, stringify!($call), "_in")]
                        fn told(
                            $($edition: Edition,)?
                            table: *const u8, _: usize,
                            classes: *const u8, _: usize,
                            $($input: *const $element, _: usize,)*
                            $($number: u32,)*
                            $($station: *mut Labels,)?
                            $($output: *mut $written, _: usize)?
                        ) -> $shown;
                    }
                    let table = language.table;
                    if language.classes.is_none() $(&& language.$edition == Edition::ONE)? {
                        return unsafe {
                            simple(
                                table.as_ptr(), table.len(),
                                $($input.as_ptr(), $input.len(),)*
                                $($number,)*
                                $($station,)?
                                $($output.as_mut_ptr(), $output.len())?
                            )
                        };
                    }
                    let classes = language.class_list();
                    unsafe {
                        told(
                            $(language.$edition,)?
                            table.as_ptr(), table.len(),
                            classes.as_ptr(), classes.len(),
                            $($input.as_ptr(), $input.len(),)*
                            $($number,)*
                            $($station,)?
                            $($output.as_mut_ptr(), $output.len())?
                        )
                    }
                })*

                fn entry(&self, sheet: &[u8], index: u32) -> Part {
                    extern "C" {
                        #[link_name = concat!($prefix, "qonveshir_entry")]
                        fn entry(sheet: *const u8, _: usize, index: u32) -> Part;
                    }
                    unsafe { entry(sheet.as_ptr(), sheet.len(), index) }
                }

                fn station_keep(
                    &self,
                    name: u16,
                    station: &mut Labels,
                    records: &mut [u8],
                ) -> Outcome {
                    extern "C" {
                        #[link_name = concat!($prefix, "qonveshir_station_keep")]
                        fn keep(name: u16, station: *mut Labels, records: *mut u8, _: usize) -> Outcome;
                    }
                    unsafe { keep(name, station, records.as_mut_ptr(), records.len()) }
                }

                fn station_return(
                    &self,
                    name: u16,
                    station: &mut Labels,
                    records: &mut [u8],
                ) -> Outcome {
                    extern "C" {
                        #[link_name = concat!($prefix, "qonveshir_station_return")]
                        fn return_to(name: u16, station: *mut Labels, records: *mut u8, _: usize) -> Outcome;
                    }
                    unsafe { return_to(name, station, records.as_mut_ptr(), records.len()) }
                }
                $crate::game! { $prefix }
            }
        };
    };
}

library!(
    /// The proved library.
    Proved,
    ""
);
