//! Links the archive of the proved library, which `tools/prove mekhturia` makes, and that of the events without their form test,
//! `tools/prove exported_events`.

fn main() {
    shared::link("mekhturia");
    shared::link("exported_events");
}
