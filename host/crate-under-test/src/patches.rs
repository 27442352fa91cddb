//! Stand-in for the crate's `PatchLog`. Document 01 leaves the logging of
//! patches out, so it logs nothing.

#[derive(Debug)]
pub struct PatchLog(());

impl PatchLog {
    pub fn inactive() -> Self {
        PatchLog(())
    }
}
