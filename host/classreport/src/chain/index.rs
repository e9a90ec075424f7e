//! Package object indices: two bits of kind, 62 bits of value.

#[derive(Debug, Clone, Copy, PartialEq, Eq)]
pub(super) enum Kind {
    Export,
    Script,
    Import,
    Null,
}

pub(super) fn kind(index: u64) -> Kind {
    match index >> 62 {
        0 => Kind::Export,
        1 => Kind::Script,
        2 => Kind::Import,
        _ => Kind::Null,
    }
}
