//! Lays out the crate that is compiled, in OUT_DIR:
//! - each file of docs/src, byte for byte, followed by the text of `append/` for that file if there is one
//!   (accessors for private statics, nothing that the source itself calls);
//! - the modules that lib.rs names but docs/src does not hold, from `absent/`;
//! - the two files that the source's own build generates: the protocol messages and the validation limits.
//!
//! lib.rs begins with a crate attribute, which Rust accepts at the head of a crate's root file only. That first line
//! stands in root.rs; the rest of lib.rs is the rest of the file, unchanged.

use std::path::{Path, PathBuf};
use std::{env, fs, process};

/// The files of docs/src that are compiled.
const SOURCES: [&str; 12] = [
    "availability.rs",
    "can.rs",
    "can_access.rs",
    "can_log.rs",
    "can_probe.rs",
    "can_tx.rs",
    "channels.rs",
    "lib.rs",
    "pairing.rs",
    "phone_trust.rs",
    "types.rs",
    "validation.rs",
];

/// Modules that lib.rs names and docs/src does not hold.
const ABSENT: [&str; 8] = [
    "ble.rs",
    "dedupe.rs",
    "dispatch.rs",
    "isotp.rs",
    "lifecycle.rs",
    "requirements.rs",
    "routing.rs",
    "simulation.rs",
];

const FIRST_LINE: &str = "#![cfg_attr(not(test), no_std)]\n";
const DEFAULT_SETTINGS: &str = "4,3,60000,30000,10000";

fn main() {
    let package = PathBuf::from(env::var("CARGO_MANIFEST_DIR").expect("cargo names the package"));
    let out = PathBuf::from(env::var("OUT_DIR").expect("cargo names OUT_DIR"));
    println!("cargo::rerun-if-env-changed=ORACLE_SRC");
    println!("cargo::rerun-if-env-changed=ORACLE_SETTINGS");
    for folder in ["append", "absent", "messages.rs", "build.rs"] {
        println!("cargo::rerun-if-changed={folder}");
    }

    let sources = source_folder(&package);
    println!("cargo::rerun-if-changed={}", sources.display());
    for name in SOURCES {
        let mut text = read(&sources.join(name));
        if name == "lib.rs" {
            match text.strip_prefix(FIRST_LINE) {
                Some(rest) => text = rest.to_string(),
                None => stop("lib.rs does not begin with the crate attribute that root.rs repeats"),
            }
        }
        let added = package.join("append").join(name);
        if added.exists() {
            text.push('\n');
            text.push_str(&read(&added));
        }
        write(&out.join(name), &text);
    }
    for name in ABSENT {
        write(&out.join(name), &read(&package.join("absent").join(name)));
    }
    write(
        &out.join("opencar.core.v1.rs"),
        &read(&package.join("messages.rs")),
    );
    write(&out.join("phone_validation.rs"), &limits());
}

/// ORACLE_SRC, or the folder docs/src beside the repository that holds this package.
fn source_folder(package: &Path) -> PathBuf {
    let folder = match env::var_os("ORACLE_SRC") {
        Some(folder) => PathBuf::from(folder),
        None => package.join("../../../shared/docs/src"),
    };
    if !folder.join("lib.rs").exists() {
        stop(&format!(
            "the Rust source is not at {}; set ORACLE_SRC to the folder docs/src",
            folder.display()
        ));
    }
    folder
}

/// The limits that the source's build takes from its contract, here from ORACLE_SETTINGS.
fn limits() -> String {
    let settings = env::var("ORACLE_SETTINGS").unwrap_or_else(|_| DEFAULT_SETTINGS.to_string());
    let numbers: Option<Vec<u64>> = settings.split(',').map(|part| part.parse().ok()).collect();
    let Some([digits, tries, session, cooldown, keep]) = numbers.as_deref() else {
        stop("ORACLE_SETTINGS is not digits,tries,session,cooldown,keep");
    };
    format!(
        "pub const CODE_LENGTH: usize = {digits};\n\
         pub const MAX_CODE_ATTEMPTS: u32 = {tries};\n\
         pub const VALIDATION_SESSION_MS: u64 = {session};\n\
         pub const VALIDATION_COOLDOWN_MS: u64 = {cooldown};\n\
         pub const VALIDATION_RESULT_KEEP_MS: u64 = {keep};\n"
    )
}

fn read(path: &Path) -> String {
    fs::read_to_string(path)
        .unwrap_or_else(|error| stop(&format!("cannot read {}: {error}", path.display())))
}

fn write(path: &Path, text: &str) {
    if let Err(error) = fs::write(path, text) {
        stop(&format!("cannot write {}: {error}", path.display()));
    }
}

fn stop(why: &str) -> ! {
    println!("cargo::error={why}");
    process::exit(1);
}
