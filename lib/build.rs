//! Links `libwoffulent.a`: the one in the folder that `WOFFULENT_LIB_DIR` names, or else one that `rt` proves and builds here.

fn main() {
    let folder = archive::link("woffulent");
    // For the tests, which compile programs that link it.
    println!("cargo::rustc-env=WOFFULENT_LIB_DIR={}", folder.display());
}
