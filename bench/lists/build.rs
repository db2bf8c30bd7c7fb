//! Links the archive of the proved lists, which `tools/prove exported_lists` makes.

fn main() {
    shared::link("exported_lists");
}
