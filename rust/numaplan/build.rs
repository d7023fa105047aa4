//! Links libnumaplan.a: that of the folder that NUMAPLAN_LIB names, else of PREFIX/lib, where this
//! crate lies in PREFIX/share/numaplan/rust, as `./numaplan library PREFIX` and packages put it, or
//! of the folder in that which Debian has for the machine. The archive has to be of the crate's
//! version, as far as a numaplan.pc beside it tells.

use std::path::PathBuf;

fn main() {
    println!("cargo:rerun-if-env-changed=NUMAPLAN_LIB");
    let named = std::env::var_os("NUMAPLAN_LIB").map(PathBuf::from);
    let here = PathBuf::from(std::env::var_os("CARGO_MANIFEST_DIR").unwrap_or_default());
    let folder = named.unwrap_or_else(|| {
        let lib = here.join("../../../../lib");
        let of_machine = lib.join("x86_64-linux-gnu");
        if of_machine.join("libnumaplan.a").exists() { of_machine } else { lib }
    });
    let told = std::fs::read_to_string(folder.join("pkgconfig/numaplan.pc")).unwrap_or_default();
    let version = told.lines().find_map(|line| line.strip_prefix("Version: "));
    if version.is_some_and(|version| version != env!("CARGO_PKG_VERSION")) {
        let (own, place) = (env!("CARGO_PKG_VERSION"), folder.display());
        eprintln!("the crate is of numaplan {own}, the library in {place} of {}", version.unwrap_or_default());
        std::process::exit(1);
    }
    if folder.join("libnumaplan.a").exists() {
        println!("cargo:rustc-link-search=native={}", folder.display());
    }
}
