//! Finds libtinkey: in the folder that the environment variable TINKEY_LIB_DIR names, or else by pkg-config.
use std::{env, path::Path, process::Command};

fn main() {
    for name in ["TINKEY_LIB_DIR", "PKG_CONFIG", "PKG_CONFIG_PATH"] {
        println!("cargo:rerun-if-env-changed={name}");
    }
    if let Ok(folder) = env::var("TINKEY_LIB_DIR") {
        println!("cargo:rerun-if-changed={folder}/libtinkey.a");
        println!("cargo:rustc-link-search=native={folder}");
        println!("cargo:rustc-link-lib=static=tinkey");
        return;
    }
    let program = env::var("PKG_CONFIG").unwrap_or_else(|_| "pkg-config".into());
    let ran = Command::new(program).args(["--libs", "tinkey"]).output();
    let said = ran.ok().filter(|it| it.status.success()).expect(
        "libtinkey isn't found: TINKEY_LIB_DIR names the folder of libtinkey.a, or PKG_CONFIG_PATH that of tinkey.pc",
    );
    for word in String::from_utf8_lossy(&said.stdout).split_whitespace() {
        if let Some(folder) = word.strip_prefix("-L") {
            println!("cargo:rustc-link-search=native={folder}");
            let archive = format!("{folder}/libtinkey.a");
            if Path::new(&archive).exists() {
                println!("cargo:rerun-if-changed={archive}");
            }
        } else if let Some(library) = word.strip_prefix("-l") {
            println!("cargo:rustc-link-lib={library}");
        }
    }
}
