//! Finds libmvs: $MVS_LIB is the folder of libmvs.a or libmvs.so.0. Without it pkg-config is asked, and then the linker's own folders
//! are searched.
use std::env;
use std::path::Path;
use std::process::Command;

fn main() {
    println!("cargo:rerun-if-env-changed=MVS_LIB");
    if let Ok(folder) = env::var("MVS_LIB") {
        println!("cargo:rustc-link-search=native={folder}");
        let kind = if Path::new(&folder).join("libmvs.a").exists() {
            "static"
        } else {
            "dylib"
        };
        println!("cargo:rustc-link-lib={kind}=mvs");
        return;
    }
    if let Some(flags) = pkg_config() {
        for folder in flags.split_whitespace().filter_map(|word| word.strip_prefix("-L")) {
            println!("cargo:rustc-link-search=native={folder}");
        }
    }
    println!("cargo:rustc-link-lib=mvs");
}

/// Returns what pkg-config prints of the library, or None without pkg-config or mvs.pc.
fn pkg_config() -> Option<String> {
    let ran = Command::new("pkg-config").args(["--libs", "mvs"]).output().ok()?;
    ran.status.success().then(|| String::from_utf8_lossy(&ran.stdout).into_owned())
}
