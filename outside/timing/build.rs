//! Links the archive of the folder that `ARCHIVE_FOLDER` names.

fn main() {
    println!("cargo:rerun-if-env-changed=ARCHIVE_FOLDER");
    if let Ok(folder) = std::env::var("ARCHIVE_FOLDER") {
        println!("cargo:rerun-if-changed={folder}/libface.a");
        println!("cargo:rustc-link-search=native={folder}");
    }
    println!("cargo:rustc-link-lib=static=face");
}
