// Links the proved library. It is the static one of this repository: scripts/library builds it by rt where it is not there yet or its sources
// have changed; the first time that takes some minutes, and scripts/library by itself tells how far it is. KITFINDER_LIB names a folder
// whose libkitfinder.a is linked instead, and then rt is not needed: lib below the prefix of scripts/install is one. With
// KITFINDER_LINK=dylib it is the shared library of that folder, libkitfinder.so.
use std::path::{Path, PathBuf};
use std::process::{exit, Command};

fn main() {
    println!("cargo:rerun-if-env-changed=KITFINDER_LIB");
    println!("cargo:rerun-if-env-changed=KITFINDER_LINK");
    let link = std::env::var("KITFINDER_LINK").unwrap_or_else(|_| "static".into());
    let name = match link.as_str() {
        "static" => "libkitfinder.a",
        "dylib" => "libkitfinder.so",
        _ => fail("KITFINDER_LINK is static or dylib"),
    };
    let folder = match std::env::var_os("KITFINDER_LIB") {
        Some(folder) => PathBuf::from(folder),
        None => built(),
    };
    let library = folder.join(name);
    if !library.exists() {
        fail(&format!("{} is not there: KITFINDER_LIB must name the folder that has it", library.display()));
    }
    println!("cargo:rustc-link-search=native={}", folder.display());
    println!("cargo:rustc-link-lib={link}=kitfinder");
    println!("cargo:rerun-if-changed={}", library.display());
}

fn fail(message: &str) -> ! {
    eprintln!("kitfinder: {message}");
    exit(1)
}

/// The folder of the library, once it is built from the sources as they are.
fn built() -> PathBuf {
    let package = std::env::var_os("CARGO_MANIFEST_DIR").map(PathBuf::from).unwrap_or_default();
    let root = package.parent().unwrap_or(Path::new("..")).to_path_buf();
    let script = root.join("scripts/library");
    if !script.exists() {
        fail("this package lies outside its repository: KITFINDER_LIB must name the folder that has libkitfinder.a");
    }
    // Not all of crates: what rt keeps in a crate's out/ is no source.
    let crates = std::fs::read_dir(root.join("crates")).into_iter().flatten().flatten();
    let parts = crates.flat_map(|one| ["src", "specs", "proofs"].map(|part| one.path().join(part)));
    let parts = parts.filter(|part| part.exists());
    for sources in [root.join("crates.txt"), root.join("scripts")].into_iter().chain(parts) {
        println!("cargo:rerun-if-changed={}", sources.display());
    }
    match Command::new(&script).status() {
        Ok(status) if status.success() => root.join("target/staticlib"),
        Ok(_) => {
            fail("the static library was not built, as told above. Without rt, KITFINDER_LIB must name a folder that has libkitfinder.a")
        }
        Err(error) => fail(&format!("{}: {error}", script.display())),
    }
}
