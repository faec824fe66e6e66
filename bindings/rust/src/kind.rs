//! The three kinds, and the register bytes that they take.

/// How a sketch keeps its registers, by the bits that each of them has. What they hold is the same.
#[derive(Clone, Copy, Debug, PartialEq, Eq, Hash)]
#[repr(u32)]
pub enum Kind {
    /// k/2 bytes: how far each register is above the least one. Registers that are 15 or more above it are exceptions, kept besides.
    #[doc(alias = "Hll4")]
    Four = 4,
    /// 3k/4 + 1 bytes.
    #[doc(alias = "Hll6")]
    Six = 6,
    /// k bytes. The only kind that others can be merged into.
    #[doc(alias = "Hll8")]
    Eight = 8,
}

impl Kind {
    /// The kind that an image's mode byte names.
    pub(crate) fn of_mode(mode: u8) -> Option<Kind> {
        match mode {
            2 => Some(Kind::Four),
            6 => Some(Kind::Six),
            10 => Some(Kind::Eight),
            _ => None,
        }
    }

    /// None for an lg_k outside 4 to 21, which a call refuses before it looks at lengths.
    pub(crate) fn register_bytes(self, lg_k: u8) -> usize {
        if !(4..=21).contains(&lg_k) {
            return 0;
        }
        let k = 1 << lg_k;
        match self {
            Kind::Four => k / 2,
            Kind::Six => k / 4 * 3 + 1,
            Kind::Eight => k,
        }
    }
}
