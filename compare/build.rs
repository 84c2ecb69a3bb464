//! Links the product's static library, if it is there: its folder is RIUVELDE_LIB, or else
//! ../target/staticlib. Where it is there, the program is built with cfg(library).
//!
//! Both the library and this program are Rust and may carry the same inner names. So the library is first
//! linked into one object of which only the C call's name stays visible.

use std::env;
use std::path::{Path, PathBuf};
use std::process::Command;

const CALL: &str = "riuvelde_plan";

fn main() {
    println!("cargo::rerun-if-env-changed=RIUVELDE_LIB");
    let library = library_file();
    println!("cargo::rerun-if-changed={}", library.display());
    println!("cargo::rustc-env=RIUVELDE_LIB_FILE={}", library.display());
    if library.exists() {
        let object = Path::new(&env::var_os("OUT_DIR").expect("cargo sets OUT_DIR")).join("riuvelde.o");
        run(Command::new("ld")
            .args(["-r", "--force-group-allocation", "-u", CALL, "-o"])
            .arg(&object)
            .arg(&library));
        run(Command::new("objcopy").arg(format!("--keep-global-symbol={CALL}")).arg(&object));
        println!("cargo::rustc-link-arg={}", object.display());
        println!("cargo::rustc-cfg=library");
    }
}

/// The library's file: RIUVELDE_LIB may name it or its folder.
fn library_file() -> PathBuf {
    let home = PathBuf::from(env::var_os("CARGO_MANIFEST_DIR").expect("cargo sets CARGO_MANIFEST_DIR"));
    let told = env::var_os("RIUVELDE_LIB").map_or_else(|| home.join("../target/staticlib"), PathBuf::from);
    if told.extension().is_some_and(|extension| extension == "a") { told } else { told.join("libc_api.a") }
}

fn run(command: &mut Command) {
    let status = command.status().unwrap_or_else(|error| panic!("{command:?} did not run: {error}"));
    assert!(status.success(), "{command:?} failed");
}
