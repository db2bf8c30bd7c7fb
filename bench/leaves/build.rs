//! Links the archive of the proved leaf functions, which `tools/prove exported_leaves` makes.

fn main() {
    shared::link("exported_leaves");
}
