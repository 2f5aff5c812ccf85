//! Sees whether GEOS's C library is installed: `geos` is set where the compiler that links finds libgeos_c.
use std::path::Path;
use std::process::Command;

fn main() {
    println!("cargo:rustc-check-cfg=cfg(geos)");
    let answer = Command::new("cc").arg("-print-file-name=libgeos_c.so").output().expect("cc is there to link");
    // The library's path; where there is none its bare name, and cargo asks again at the next build.
    let found = String::from_utf8(answer.stdout).expect("a path");
    println!("cargo:rerun-if-changed={}", found.trim_end());
    if Path::new(found.trim_end()).exists() {
        println!("cargo:rustc-cfg=geos");
    }
}
