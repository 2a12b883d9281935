//! Links libhelvidrane.a, from the folder that HELVIDRANE_ARCHIVE names, and the shims before it in the program that has them.

use std::path::Path;
use std::process::Command;

const FUNCTIONS: [&str; 18] = [
    "hv_description",
    "hv_column",
    "hv_manager",
    "hv_column_by_name",
    "hv_check",
    "hv_plan",
    "hv_place",
    "hv_place_planned",
    "hv_place_in_bucket",
    "hv_view",
    "hv_view_planned",
    "hv_padded_view",
    "hv_padded_view_planned",
    "hv_table_keyword",
    "hv_column_keyword",
    "hv_table_field",
    "hv_column_field",
    "hv_element_bits",
];

fn main() {
    let folder = std::env::var("HELVIDRANE_ARCHIVE").expect("HELVIDRANE_ARCHIVE names the folder of libhelvidrane.a");
    println!("cargo:rustc-link-search=native={folder}");
    println!("cargo:rustc-link-lib=static=helvidrane");
    println!("cargo:rerun-if-env-changed=HELVIDRANE_ARCHIVE");
    println!("cargo:rerun-if-changed={folder}/libhelvidrane.a");

    let (source, include) = ("shims/shims.c", "../../include");
    let object = Path::new(&std::env::var("OUT_DIR").expect("cargo names OUT_DIR")).join("shims.o");
    let cc = Command::new("cc")
        .args(["-std=c11", "-O1", "-Wall", "-Wextra", "-Werror", "-pedantic", "-I", include, "-c", source, "-o"])
        .arg(&object)
        .status();
    assert!(cc.expect("cc runs").success(), "{source} is compiled");
    println!("cargo:rustc-link-arg-bin=shims={}", object.display());
    for function in FUNCTIONS {
        println!("cargo:rustc-link-arg-bin=shims=-Wl,--wrap={function}");
    }
    println!("cargo:rerun-if-changed={source}");
    println!("cargo:rerun-if-changed={include}/helvidrane.h");
}
