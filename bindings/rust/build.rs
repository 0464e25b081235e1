// Links the archive that `rt lib` in crates/exports writes. DCA_LIB_DIR names another folder that has it.
use std::env;
use std::path::PathBuf;

fn main() {
    let own = PathBuf::from(env::var("CARGO_MANIFEST_DIR").unwrap()).join("../../crates/exports/out");
    let folder = env::var("DCA_LIB_DIR").map(PathBuf::from).unwrap_or(own);
    println!("cargo:rerun-if-env-changed=DCA_LIB_DIR");
    println!("cargo:rerun-if-changed={}", folder.join("libexports.a").display());
    println!("cargo:rustc-link-search=native={}", folder.display());
    println!("cargo:rustc-link-lib=static=exports");
}
