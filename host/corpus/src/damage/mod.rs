//! Damage: named faults in document 01's order of questions, each an edit of a sound draft, and damage to bytes by
//! chance; beside them edits that are no faults. So too of what describes a header.
mod accents;
mod batch;
mod block;
mod bytes;
mod description;
mod frame;
mod package;
mod script;
mod sound;
mod utf8;

pub use accents::{Accent, accents};
pub use block::cuts;
pub use bytes::{damage, damage_block, damage_description};
pub use description::{Malformed, malformed, sound_description};
pub use sound::sound;
pub use utf8::ILL_FORMED;

use crate::draft::Draft;

type Edit = Box<dyn Fn(&mut Draft)>;

/// An edit of a draft, and what it makes the call answer.
pub struct Fault {
    pub name: String,
    pub refusal: u8,
    pub block: u32,
    edit: Edit,
}

impl Fault {
    fn new(
        name: impl Into<String>,
        (refusal, block): (u8, u32),
        edit: impl Fn(&mut Draft) + 'static,
    ) -> Fault {
        Fault {
            name: name.into(),
            refusal,
            block,
            edit: Box::new(edit),
        }
    }

    pub fn apply(&self, draft: &mut Draft) {
        (self.edit)(draft);
    }
}

/// Every fault for a draft made by `sound`, in the order in which the questions are asked. Where several are there at
/// once, the first decides; they are to be applied last to first, since an edit may undo a later one's.
pub fn faults(draft: &Draft) -> Vec<Fault> {
    let mut out = frame::faults();
    out.extend(script::faults(&draft.script));
    for (i, (_, package)) in draft.packages.iter().enumerate() {
        out.extend(package::faults(package, i));
    }
    out.extend(frame::last_faults());
    out
}
