//! Finds `librhai_host.a`: in the folder that `RHAI_HOST_LIB` names, or where a release has it, or
//! where `rt lib` writes it. It must have the stamp for which this crate's declarations were written.
use std::path::{Path, PathBuf};

const HOW: &str =
    "run `tools/static_library rhai_host`, or `rt lib` in crates/rhai_host, or set RHAI_HOST_LIB to the folder of librhai_host.a";
const STAMPED: &str = "src/sys/exports/stamp.rs";

fn main() {
    println!("cargo:rerun-if-env-changed=RHAI_HOST_LIB");
    println!("cargo:rerun-if-changed={STAMPED}");
    let folder = match std::env::var_os("RHAI_HOST_LIB") {
        Some(folder) => PathBuf::from(folder),
        None => beside(),
    };
    let library = folder.join("librhai_host.a");
    println!("cargo:rerun-if-changed={}", library.display());
    if let Err(why) = suits(&library) {
        eprintln!("{why}");
        std::process::exit(1);
    }
    println!("cargo:rustc-link-search=native={}", folder.display());
    println!("cargo:rustc-link-lib=static=rhai_host");
}

/// Returns the folder of the library next to this crate: `lib` in a release, or the output folder of
/// the library's crate.
fn beside() -> PathBuf {
    let crate_folder = PathBuf::from(std::env::var_os("CARGO_MANIFEST_DIR").expect("cargo sets it"));
    let released = crate_folder.join("../lib");
    if released.join("librhai_host.a").is_file() {
        released
    } else {
        crate_folder.join("../crates/rhai_host/out")
    }
}

/// Checks that the library exists, and exports what this crate declares.
fn suits(library: &Path) -> Result<(), String> {
    let bytes = std::fs::read(library).map_err(|error| format!("no {}: {error}\n{HOW}", library.display()))?;
    let source = std::fs::read_to_string(STAMPED).map_err(|error| format!("{STAMPED}: {error}"))?;
    let stamp = stamp_in(&source).ok_or(format!("no stamp in {STAMPED}: run tools/host_declarations"))?;
    if bytes.windows(stamp.len()).any(|part| part == stamp.as_bytes()) {
        return Ok(());
    }
    Err(format!("{} was built from other sources than this crate declares: it lacks {stamp}\n{HOW}", library.display()))
}

fn stamp_in(source: &str) -> Option<&str> {
    let from = &source[source.find("rhai_host_stamp_")?..];
    Some(&from[..from.find('(')?])
}
