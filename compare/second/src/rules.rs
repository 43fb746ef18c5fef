//! Where the rules depart from those of the published crate: one switch for each request that asked for it.

/// A departure, by the name of its request.
#[derive(Clone, Copy, Debug, PartialEq, Eq)]
pub enum Departure {
    /// A refused load leaves guest memory as it was.
    L13,
    /// A loadable segment of memory alone, without file bytes, counts for the kernel's end.
    L3,
    /// A loadable segment with more bytes in the file than in memory is refused.
    L8,
    /// The first PVH note found holds: a later note header neither replaces nor clears it, but may still be refused.
    L7,
}

impl Departure {
    /// Those that the proved code has. Each request adds its own when it lands.
    pub const LANDED: &'static [Departure] =
        &[Departure::L13, Departure::L3, Departure::L8, Departure::L7];

    pub fn name(self) -> &'static str {
        match self {
            Departure::L13 => "L13",
            Departure::L3 => "L3",
            Departure::L8 => "L8",
            Departure::L7 => "L7",
        }
    }
}

/// A set of departures; the rules are the published ones but for these.
#[derive(Clone, Copy, Debug, PartialEq, Eq)]
pub struct Rules {
    /// A bit for each.
    pub switched_on: u32,
}

impl Rules {
    /// The published crate is held to these.
    pub const PUBLISHED: Rules = Rules { switched_on: 0 };

    /// The proved code is held to these.
    pub fn landed() -> Rules {
        Rules::of(Departure::LANDED)
    }

    pub fn of(departures: &[Departure]) -> Rules {
        let bits = departures.iter().map(|departure| departure.bit());
        Rules {
            switched_on: bits.fold(0, |all, bit| all | bit),
        }
    }

    pub fn has(self, departure: Departure) -> bool {
        self.switched_on & departure.bit() != 0
    }
}

impl Departure {
    fn bit(self) -> u32 {
        1 << self as u32
    }
}

#[cfg(test)]
mod tests {
    use super::*;

    #[test]
    fn only_what_is_switched_on_departs() {
        assert!(!Rules::PUBLISHED.has(Departure::L13));
        let rules = Rules::of(&[Departure::L13]);
        assert!(rules.has(Departure::L13) && !rules.has(Departure::L3));
        assert_eq!(Rules::of(&[]), Rules::PUBLISHED);
        for departure in Departure::LANDED {
            assert!(Rules::landed().has(*departure));
        }
    }
}
