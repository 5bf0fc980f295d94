//! Lays sctp-proto's own files, byte for byte, and the stubs into OUT_DIR/sctp, and names them as modules in OUT_DIR/sctp.rs.
//! A file that is missing, or whose sum is not the one in SOURCES.sha256, ends the build.
mod sha256;
mod sources;

use std::path::{Path, PathBuf};
use std::{env, fs};

const LIST: &str = include_str!("SOURCES.sha256");
const STUBS: [&str; 2] = ["chunk/chunk_heartbeat_ack.rs", "queue/mod.rs"];
const CRATES: [&str; 4] = ["bytes", "thiserror", "crc", "rand"];

fn main() {
    let here = fs::canonicalize("build.rs").unwrap().parent().unwrap().to_path_buf();
    let beside_the_repository = here.ancestors().nth(3).unwrap_or(&here).join("shared/docs/src");
    let folder = env::var_os("SCTP_PROTO_SRC").map_or(beside_the_repository, PathBuf::from);
    let out = PathBuf::from(env::var_os("OUT_DIR").unwrap());
    for watched in ["build.rs", "sha256.rs", "sources.rs", "SOURCES.sha256", "stubs"] {
        println!("cargo:rerun-if-changed={watched}");
    }
    println!("cargo:rerun-if-env-changed=SCTP_PROTO_SRC");
    let _ = fs::remove_dir_all(out.join("sctp"));
    for (sum, path) in sources::list(LIST) {
        let (place, bytes) = sources::file(&folder, path, sum).unwrap_or_else(|wrong| {
            eprintln!("oracle: {wrong}");
            std::process::exit(1)
        });
        println!("cargo:rerun-if-changed={}", place.display());
        lay(&out.join("sctp").join(path), &bytes);
    }
    for stub in STUBS {
        lay(&out.join("sctp").join(stub), &fs::read(Path::new("stubs").join(stub)).unwrap());
    }
    lay(&out.join("sctp.rs"), modules(&out.join("sctp")).as_bytes());
    println!("cargo:rustc-env=ORACLE_CRATES={}", crates());
}

fn lay(file: &Path, bytes: &[u8]) {
    fs::create_dir_all(file.parent().unwrap()).unwrap();
    fs::write(file, bytes).unwrap();
}

/// The modules that sctp-proto's own lib.rs would name.
fn modules(folder: &Path) -> String {
    let files = ["error.rs", "shared.rs", "packet.rs", "util.rs", "chunk/mod.rs", "param/mod.rs", "queue/mod.rs"];
    let module = |file: &&str| {
        let name = file.split(['.', '/']).next().unwrap();
        format!("#[allow(dead_code, unused_imports, unused_macros, clippy::all)]\n#[path = {:?}]\npub(crate) mod {name};\n", folder.join(file))
    };
    files.iter().map(module).collect()
}

/// What is linked for each crate that sctp-proto asks for: a package of the lock file has a source, a stand-in has none.
fn crates() -> String {
    let lock = [Path::new("Cargo.lock"), Path::new("../Cargo.lock")].into_iter().find(|l| l.is_file()).expect("a Cargo.lock");
    println!("cargo:rerun-if-changed={}", lock.display());
    let text = fs::read_to_string(lock).unwrap();
    let field = |package: &str, key: &str| package.lines().find_map(|l| l.strip_prefix(key)?.strip_prefix(" = ").map(|v| v.trim_matches('"').to_string()));
    let linked = |name: &&str| {
        let package = text.split("[[package]]").find(|p| field(p, "name").as_deref() == Some(name)).expect("a crate of the lock file");
        match field(package, "source") {
            Some(_) => format!("{name} {}", field(package, "version").unwrap()),
            None => format!("{name} stand-in"),
        }
    };
    CRATES.iter().map(linked).collect::<Vec<_>>().join(", ")
}
