//! Links the proved library, libsctp_receive.a: from the folder that SCTP_RECEIVE_LIB names, by default target/native of the repository
//! (`make lib` writes it).
use std::{env, path::PathBuf};

fn main() {
    let here = PathBuf::from(env::var_os("CARGO_MANIFEST_DIR").expect("cargo sets CARGO_MANIFEST_DIR"));
    let folder = match env::var_os("SCTP_RECEIVE_LIB") {
        Some(folder) => PathBuf::from(folder),
        None => here.join("../../../target/native"),
    };
    let archive = folder.join("libsctp_receive.a");
    println!("cargo::rerun-if-env-changed=SCTP_RECEIVE_LIB");
    println!("cargo::rerun-if-changed={}", archive.display());
    if !archive.is_file() {
        println!("cargo::error={} is not there: run `make lib`, or set SCTP_RECEIVE_LIB to its folder", archive.display());
        return;
    }
    println!("cargo::rustc-link-search=native={}", folder.display());
    println!("cargo::rustc-link-lib=static=sctp_receive");
}
