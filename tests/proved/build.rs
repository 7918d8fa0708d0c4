//! Links the archive of the Rattle crate `test_exports`: the one in the folder that `TEST_EXPORTS_LIB_DIR` names, or else one that `rt` proves and builds here.

fn main() {
    archive::link("test_exports");
}
