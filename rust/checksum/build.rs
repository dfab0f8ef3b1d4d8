//! Links the archive of the proved checksum. `CHECKSUM_ARCHIVE` may name a ready one.

fn main() {
    println!("cargo::rerun-if-changed=build.rs");
    linking::link(linking::Archive {
        proved: "checksum_calls",
        variable: "CHECKSUM_ARCHIVE",
    });
}
