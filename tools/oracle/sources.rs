//! sctp-proto's files: which are built, where they are, and whether they are the ones of version 0.10.8. For the build only.
use crate::sha256;
use std::fs;
use std::path::{Path, PathBuf};

/// The sum and the path of each file of a list such as SOURCES.sha256 (the form of `sha256sum`).
pub fn list(text: &str) -> Vec<(&str, &str)> {
    text.lines().filter_map(|line| line.split_once("  ")).collect()
}

/// The file and its bytes, where it is under that folder and has that sum; else what is wrong.
pub fn file(folder: &Path, path: &str, sum: &str) -> Result<(PathBuf, Vec<u8>), String> {
    let flat = format!("src--src--{}.txt", path.replace('/', "--"));
    let places = [folder.join("src").join(path), folder.join(path), folder.join(flat)];
    let Some(place) = places.into_iter().find(|p| p.is_file()) else {
        return Err(format!("{path} is not under {}: set SCTP_PROTO_SRC to the folder of sctp-proto 0.10.8", folder.display()));
    };
    let bytes = fs::read(&place).map_err(|e| format!("{}: {e}", place.display()))?;
    let found = sha256::sum(&bytes);
    if found != sum {
        return Err(format!("{path} is not sctp-proto 0.10.8's: SHA-256 {found} of {}, but SOURCES.sha256 says {sum}", place.display()));
    }
    Ok((place, bytes))
}
