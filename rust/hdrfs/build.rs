//! Links the archive of the proved library. `HDRFS_ARCHIVE` may name a ready one.

fn main() {
    println!("cargo::rerun-if-changed=build.rs");
    linking::link(linking::Archive {
        proved: "exchange",
        variable: "HDRFS_ARCHIVE",
    });
}
