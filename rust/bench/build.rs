//! Takes the library before a change into the program, if `QONVESHIR_BEFORE` names its archive, and
//! the present one once more beside it. Their symbols get the prefixes `before_` and `now_`, and
//! the functions of both start at multiples of 64 bytes, so that what is the same in both takes the
//! same time. What the one before lacks of the header's calls has a stand-in.

use std::path::{Path, PathBuf};
use std::process::{exit, Command};
use std::{env, fs};

#[path = "../proved/src/sum.rs"]
mod sum;

/// Symbols that an archive takes from the system's library, which keep their names.
const SYSTEM: [&str; 5] = ["memset", "memcpy", "memmove", "memcmp", "bcmp"];

fn main() {
    println!("cargo::rerun-if-env-changed=QONVESHIR_BEFORE");
    println!("cargo::rustc-check-cfg=cfg(before)");
    let before = env::var_os("QONVESHIR_BEFORE").map(PathBuf::from);
    let now = env::var_os("DEP_QONVESHIR_ARCHIVE").map(PathBuf::from);
    let (Some(before), Some(now)) = (before, now) else { return };
    let taken = take_in(&before, "before").and_then(|()| take_in(&now, "now"));
    if let Err(message) = taken.and_then(|()| write_calls(&before)) {
        println!("cargo::error={message}");
        exit(1);
    }
    println!("cargo::rustc-cfg=before");
}

/// Links an archive with a prefix in front of its symbols.
fn take_in(archive: &Path, prefix: &str) -> Result<(), String> {
    println!("cargo::rerun-if-changed={}", archive.display());
    let folder = out()?;
    let renamed = folder.join(format!("lib{prefix}.a"));
    objcopy(&[format!("--prefix-symbols={prefix}_")], &[archive, &renamed])?;
    let names = SYSTEM.iter().map(|name| format!("--redefine-sym={prefix}_{name}={name}"));
    let aligned = "--set-section-alignment=.text.*=64".to_owned();
    objcopy(&names.chain([aligned]).collect::<Vec<_>>(), &[&renamed])?;
    println!("cargo::rustc-link-search=native={}", folder.display());
    println!("cargo::rustc-link-lib=static={prefix}");
    Ok(())
}

fn out() -> Result<PathBuf, String> {
    env::var_os("OUT_DIR").map(PathBuf::from).ok_or("cargo names no OUT_DIR".into())
}

fn objcopy(options: &[String], files: &[&Path]) -> Result<(), String> {
    match Command::new("objcopy").args(options).args(files).status() {
        Ok(status) if status.success() => Ok(()),
        Ok(status) => Err(format!("objcopy {}: {status}", files[0].display())),
        Err(error) => Err(format!("objcopy: {error}")),
    }
}

/// Writes down the calls that the archive before has, and a stand-in for each that it lacks.
fn write_calls(archive: &Path) -> Result<(), String> {
    let read = |error: std::io::Error| error.to_string();
    let header = concat!(env!("CARGO_MANIFEST_DIR"), "/../../include/qonveshir.h");
    println!("cargo::rerun-if-changed={header}");
    let (header, archive) =
        (fs::read_to_string(header).map_err(read)?, fs::read(archive).map_err(read)?);
    println!("cargo::rustc-env=QONVESHIR_BEFORE_SUM={:016x}", sum::sum(&archive));
    let calls = header.split("\nqonveshir_").skip(1).filter_map(|text| {
        let (call, _) = text.split_once(' ')?.1.split_once('(')?;
        Some(call)
    });
    // A name may share its text with a longer one that ends with it, such as its section's.
    let names: Vec<&[u8]> = archive.split(|&byte| byte == 0).collect();
    let defined = |call: &&str| names.iter().any(|name| name.ends_with(call.as_bytes()));
    let (has, lacks): (Vec<&str>, Vec<&str>) = calls.partition(defined);
    let stand_ins = lacks.iter().map(|call| {
        format!(
            "#[no_mangle]\npub extern \"C\" fn before_{call}() {{\n    \
             panic!(\"the library before has no {call}\");\n}}\n"
        )
    });
    let text = format!("const CALLS: &[&str] = &{has:?};\n{}", stand_ins.collect::<String>());
    fs::write(out()?.join("calls.rs"), text).map_err(read)
}
