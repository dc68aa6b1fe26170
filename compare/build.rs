//! Says where the port's archives stand and has the program linked anew when they change: in
//! `target/staticlib` at the repository's root, or where `MOSSZEPHYR_ARCHIVES` says.
//! Which archives, and that only the program wants them, is said in src/face.rs.

fn main() {
    let here = std::env::var("CARGO_MANIFEST_DIR").expect("cargo tells the package's folder");
    let folder = std::env::var("MOSSZEPHYR_ARCHIVES");
    let folder = folder.unwrap_or_else(|_| format!("{here}/../target/staticlib"));
    println!("cargo:rustc-link-search=native={folder}");
    println!("cargo:rerun-if-changed={folder}/libmosszephyr.a");
    println!("cargo:rerun-if-changed={folder}/libprobe.a");
    println!("cargo:rerun-if-env-changed=MOSSZEPHYR_ARCHIVES");
    println!("cargo:rerun-if-changed=build.rs");
}
