// Links two archives beside each other, if DCA_BEFORE_DIR names the folder of an earlier one: copies in which each call has another name,
// a pair of them for each of some placements.
use std::path::{Path, PathBuf};
use std::process::Command;
use std::{env, fs};

const CALLS: [&str; 15] = [
    "dca_account",
    "dca_class_account",
    "dca_float_report",
    "dca_nearest",
    "dca_hot_list",
    "dca_rank",
    "dca_join_table",
    "dca_gabriel",
    "dca_bands",
    "dca_grid_rook",
    "dca_grid_bishop",
    "dca_grid_queen",
    "dca_read",
    "dca_write",
    "dca_report",
];

/// The functions of a copy begin at multiples of one of these. By where a loop happens to lie alone, the same code can be slower by a
/// third, so that one placement is no fair place for two archives.
const PLACEMENTS: [usize; 4] = [16, 32, 64, 128];

/// Links a copy of a folder's archive, placed so, with its name and the placement in front of the calls' names.
fn link(folder: &Path, name: &str, placement: usize, out: &Path) {
    let archive = folder.join("libexports.a");
    println!("cargo:rerun-if-changed={}", archive.display());
    let front = format!("{name}{placement}_");
    let names = out.join(format!("{front}names"));
    let lines = CALLS.map(|call| format!("{call} {front}{call}\n"));
    fs::write(&names, lines.concat()).expect("the names are written");
    let mut objcopy = Command::new("objcopy");
    objcopy.arg("--redefine-syms").arg(names);
    objcopy.arg("--set-section-alignment");
    objcopy.arg(format!(".text.*={placement}"));
    let copy = out.join(format!("lib{front}exports.a"));
    let status = objcopy.arg(&archive).arg(copy).status();
    let done = status.expect("objcopy is there").success();
    assert!(done, "objcopy of {}", archive.display());
    println!("cargo:rustc-link-lib=static={front}exports");
}

fn main() {
    println!("cargo:rustc-check-cfg=cfg(before)");
    println!("cargo:rerun-if-changed=build.rs");
    println!("cargo:rerun-if-env-changed=DCA_BEFORE_DIR");
    println!("cargo:rerun-if-env-changed=DCA_LIB_DIR");
    let Some(before) = env::var_os("DCA_BEFORE_DIR").filter(|folder| !folder.is_empty()) else {
        return;
    };
    let own = PathBuf::from(env::var("CARGO_MANIFEST_DIR").unwrap()).join("../../crates/exports/out");
    let now = env::var_os("DCA_LIB_DIR").map_or(own, PathBuf::from);
    let out = PathBuf::from(env::var("OUT_DIR").unwrap());
    for placement in PLACEMENTS {
        link(&now, "now", placement, &out);
        link(Path::new(&before), "before", placement, &out);
    }
    println!("cargo:rustc-link-search=native={}", out.display());
    println!("cargo:rustc-cfg=before");
}
