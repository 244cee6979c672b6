//! Tells the linker where `libmeltsjuk.a` is: in the folder that MELTSJUK_LIB names (a relative path counts from this package's
//! folder), or else where `rt lib` in crates/meltsjuk writes it.
use std::env;
use std::path::PathBuf;

fn main() {
    println!("cargo:rerun-if-env-changed=MELTSJUK_LIB");
    let package = PathBuf::from(env::var_os("CARGO_MANIFEST_DIR").expect("cargo names the package's folder"));
    let folder = package.join(env::var_os("MELTSJUK_LIB").unwrap_or_else(|| "../../crates/meltsjuk/out".into()));
    let archive = folder.join("libmeltsjuk.a");
    if !archive.is_file() {
        panic!("{} is not there: `rt lib` in crates/meltsjuk writes it, and MELTSJUK_LIB names another folder", archive.display());
    }
    println!("cargo:rerun-if-changed={}", archive.display());
    println!("cargo:rustc-link-search=native={}", folder.display());
    println!("cargo:rustc-link-lib=static=meltsjuk");
}
