//! Finds libcallbridge.a: in the folder that CALLBRIDGE names, else where pkg-config says that it was
//! installed. Where it is not found a warning says so and nothing fails here: `cargo doc` and
//! `cargo check` need no library, and what is linked without it fails with its name.

use std::env;
use std::path::Path;
use std::process::Command;

fn main() {
    println!("cargo:rerun-if-env-changed=CALLBRIDGE");
    println!("cargo:rerun-if-env-changed=PKG_CONFIG_PATH");
    println!("cargo:rustc-link-lib=static=callbridge");
    let named = env::var("CALLBRIDGE").ok().filter(|folder| !folder.is_empty());
    let folder = named.or_else(installed).unwrap_or_default();
    let library = Path::new(&folder).join("libcallbridge.a");
    // Of a file that is not there cargo asks again at each build.
    println!("cargo:rerun-if-changed={}", library.display());
    if !folder.is_empty() && library.is_file() {
        println!("cargo:rustc-link-search=native={folder}");
    } else if env::var_os("DOCS_RS").is_none() {
        println!(
            "cargo:warning=libcallbridge.a was not found{}: set CALLBRIDGE to its folder, or install \
             callbridge.pc where pkg-config looks",
            if folder.is_empty() { String::new() } else { format!(" in {folder}") }
        );
    }
}

fn installed() -> Option<String> {
    let answer = Command::new("pkg-config").args(["--variable=libdir", "callbridge"]).output();
    let output = answer.ok().filter(|output| output.status.success())?;
    Some(String::from_utf8(output.stdout).ok()?.trim().to_string())
}
