//! Finds `libmsc.a` in the folder that `MSC_LIB_DIR` names, or through `pkg-config`.

use std::env;
use std::process::Command;

/// The folders that `pkg-config` names, or why it names none.
fn folders_by_pkg_config() -> Result<Vec<String>, String> {
    let program = env::var("PKG_CONFIG").unwrap_or_else(|_| "pkg-config".to_string());
    let output = Command::new(&program)
        .args(["--libs-only-L", "msc"])
        // (it leaves out the folders in which linkers look anyway, and rustc doesn't look there for static libraries)
        .env("PKG_CONFIG_ALLOW_SYSTEM_LIBS", "1")
        .output()
        .map_err(|error| format!("{program}: {error}"))?;
    if !output.status.success() {
        return Err(String::from_utf8_lossy(&output.stderr).trim().to_string());
    }
    let words = String::from_utf8_lossy(&output.stdout).into_owned();
    Ok(words.split_whitespace().filter_map(|word| word.strip_prefix("-L")).map(str::to_string).collect())
}

fn main() {
    for name in ["MSC_LIB_DIR", "PKG_CONFIG", "PKG_CONFIG_PATH", "PKG_CONFIG_LIBDIR"] {
        println!("cargo:rerun-if-env-changed={name}");
    }
    let folders = match env::var("MSC_LIB_DIR") {
        Ok(folder) => vec![folder],
        Err(_) => folders_by_pkg_config().unwrap_or_else(|why| {
            eprintln!("msc: libmsc.a isn't found: {why}");
            eprintln!(
                "msc: let MSC_LIB_DIR be the folder that has it, or PKG_CONFIG_PATH the one that has msc.pc"
            );
            std::process::exit(1)
        }),
    };
    for folder in &folders {
        println!("cargo:rustc-link-search=native={folder}");
        println!("cargo:rerun-if-changed={folder}/libmsc.a");
    }
    println!("cargo:rustc-link-lib=static=msc");
    if env::var_os("CARGO_FEATURE_OWN_ALLOCATOR").is_none() {
        println!("cargo:rustc-link-lib=static=msc_malloc");
    }
}
