//! Links libforesight.a: from the folder that FORESIGHT_LIBRARY_DIR names, or from where pkg-config
//! has it.
use std::env;
use std::process::Command;

fn main() {
    println!("cargo:rerun-if-env-changed=FORESIGHT_LIBRARY_DIR");
    match env::var("FORESIGHT_LIBRARY_DIR") {
        Ok(folder) => println!("cargo:rustc-link-search=native={folder}"),
        Err(_) => {
            let asked = Command::new("pkg-config").args(["--libs-only-L", "foresight"]).output();
            let said = asked.map(|ran| String::from_utf8_lossy(&ran.stdout).into_owned());
            for word in said.unwrap_or_default().split_whitespace() {
                println!("cargo:rustc-link-search=native={}", word.trim_start_matches("-L"));
            }
        }
    }
    println!("cargo:rustc-link-lib=static=foresight");
}
