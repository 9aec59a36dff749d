//! Finds the archive of the proved library and says how it is linked; if it is missing, says how it is made.

use std::env;
use std::path::PathBuf;
use std::process::exit;

/// A folder with an installed archive.
const LIB_DIR: &str = "CHALOENPIK_LIB_DIR";
/// Set to anything: nothing is linked. That is enough for `cargo check` and `cargo doc`.
const NO_LINK: &str = "CHALOENPIK_NO_LINK";

fn main() {
    println!("cargo:rerun-if-changed=build.rs");
    println!("cargo:rerun-if-env-changed={LIB_DIR}");
    println!("cargo:rerun-if-env-changed={NO_LINK}");
    if env::var_os(NO_LINK).is_some() {
        return;
    }
    if let Err(why) = link() {
        eprintln!("chaloenpik: {why}");
        eprintln!("To check or document this crate without the archive, set {NO_LINK}=1.");
        exit(1);
    }
}

fn link() -> Result<(), String> {
    let (processor, system) = (cargo_says("CARGO_CFG_TARGET_ARCH"), cargo_says("CARGO_CFG_TARGET_OS"));
    if (processor.as_str(), system.as_str()) != ("x86_64", "linux") {
        return Err(format!(
            "the archive of the proved library is for x86-64 Linux, and the target is {processor} {system}.\n\
             Build with --target x86_64-unknown-linux-gnu."
        ));
    }
    let (folder, name) = match env::var_os(LIB_DIR) {
        Some(folder) => (PathBuf::from(folder), "chaloenpik"),
        None => (repository().join("target/staticlib"), "exports"),
    };
    let archive = folder.join(format!("lib{name}.a"));
    if !archive.is_file() {
        return Err(missing(archive));
    }
    println!("cargo:rerun-if-changed={}", archive.display());
    println!("cargo:rustc-link-search=native={}", folder.display());
    println!("cargo:rustc-link-lib=static={name}");
    Ok(())
}

fn cargo_says(name: &str) -> String {
    env::var(name).unwrap_or_default()
}

/// The repository that this crate stands in, as bindings/rust.
fn repository() -> PathBuf {
    let here = PathBuf::from(cargo_says("CARGO_MANIFEST_DIR"));
    here.ancestors().nth(2).map(PathBuf::from).unwrap_or(here)
}

fn missing(archive: PathBuf) -> String {
    let archive = archive.display();
    if env::var_os(LIB_DIR).is_some() {
        return format!("{archive} is missing. {LIB_DIR} has to name the folder that holds it.");
    }
    format!(
        "the archive of the proved library is missing: {archive}\n\
         Make it with `tools/c/archive` in the repository, which calls `rt lib` for three crates and needs the Rattle kit.\n\
         Or set {LIB_DIR} to the folder of an installed libchaloenpik.a."
    )
}
