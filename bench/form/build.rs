//! Links the archive of the proved functions, which `tools/prove exported_leaves` makes.

fn main() {
    shared::link("exported_leaves");
}
