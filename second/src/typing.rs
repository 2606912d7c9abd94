//! The two masks T and M of each policy, and what is right by them ("Typing").

/// T, the fields tested, and M, the fields that may be written.
#[derive(Clone, Copy, Debug, Default, PartialEq, Eq)]
pub struct Masks {
    pub tested: u8,
    pub written: u8,
}

impl Masks {
    pub const NONE: Masks = Masks { tested: 0, written: 0 };

    pub fn test_of(field: u8) -> Masks {
        Masks { tested: 1 << field, written: 0 }
    }

    pub fn set_of(field: u8) -> Masks {
        Masks { tested: 0, written: 1 << field }
    }

    /// Sum and sequence: the unions.
    pub fn joined(self, other: Masks) -> Masks {
        Masks { tested: self.tested | other.tested, written: self.written | other.written }
    }
}

/// R and W of an entry of the contents.
#[derive(Clone, Copy, Debug, Default, PartialEq, Eq)]
pub struct Declared {
    pub readable: u8,
    pub writable: u8,
}

impl Declared {
    /// The rule of refusal 4.
    pub fn is_allowed(self, all_fields: u8) -> bool {
        self.readable & self.writable == 0 && (self.readable | self.writable) & !all_fields == 0
    }

    /// The masks of a use of the table. Its declaration counts, never its body.
    pub fn masks_of_use(self) -> Masks {
        Masks { tested: self.readable | self.writable, written: self.writable }
    }

    pub fn fits(self, body: Masks) -> bool {
        body.tested & !(self.readable | self.writable) == 0 && body.written & !self.writable == 0
    }
}

/// The masks Wp and Wq written at a concurrent part.
#[derive(Clone, Copy, Debug, PartialEq, Eq)]
pub struct Sides {
    pub left: u8,
    pub right: u8,
}

impl Sides {
    pub fn are_right(self, p: Masks, q: Masks) -> bool {
        p.written & !self.left == 0
            && q.written & !self.right == 0
            && self.left & self.right == 0
            && p.tested & self.right == 0
            && q.tested & self.left == 0
    }

    /// The masks of the whole concurrent part; the same whether it is right or not.
    pub fn masks(self, p: Masks, q: Masks) -> Masks {
        Masks { tested: p.tested | q.tested, written: self.left | self.right }
    }
}
