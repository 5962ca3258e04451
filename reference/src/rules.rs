//! Which requests of document 02 that change runs are in force.

/// The highest kind under any rules.
pub const LAST_KIND: u32 = 20;

/// One field for each such request; `BASE` is the machine of document 01.
#[derive(Clone, Copy, Debug, PartialEq, Eq)]
pub struct Rules {
    /// Item 1: clocks to 32,000,000,000.
    pub wide_clocks: bool,
    /// Item 6: only the holder releases; ends 27 and 28.
    pub holders: bool,
    /// Item 7: kind 17, joined waits.
    pub joined: bool,
    /// Item 8: kind 18, ASSEMBLE.
    pub assemble: bool,
    /// Item 11: kinds 19 and 20, PREEMPT and RETURN.
    pub preempt: bool,
    /// Item 12: 2 where runs under the 1996 rules are accepted, else 1.
    pub highest_edition: u32,
}

impl Rules {
    /// Document 01 alone.
    pub const BASE: Rules = Rules {
        wide_clocks: false,
        holders: false,
        joined: false,
        assemble: false,
        preempt: false,
        highest_edition: 1,
    };

    /// Every request that stands here.
    pub const ALL: Rules = Rules {
        wide_clocks: true,
        holders: true,
        joined: true,
        assemble: true,
        preempt: true,
        highest_edition: 2,
    };

    /// What the engine does: all of them.
    pub const LANDED: Rules = Rules::ALL;

    /// The requests of these numbers; those that change no run are no matter.
    pub fn of(requests: &[u32]) -> Rules {
        Rules {
            wide_clocks: requests.contains(&1),
            holders: requests.contains(&6),
            joined: requests.contains(&7),
            assemble: requests.contains(&8),
            preempt: requests.contains(&11),
            highest_edition: if requests.contains(&12) { 2 } else { 1 },
        }
    }

    /// From a list of numbers with commas between, `none` or `all`.
    pub fn parse(text: &str) -> Option<Rules> {
        match text {
            "none" => Some(Rules::BASE),
            "all" => Some(Rules::ALL),
            _ => {
                let requests: Option<Vec<u32>> =
                    text.split(',').map(|word| word.parse().ok()).collect();
                Some(Rules::of(&requests?))
            }
        }
    }

    /// All requests up to this number.
    pub fn through(request: u32) -> Rules {
        Rules::of(&(1..=request).collect::<Vec<u32>>())
    }

    /// Is there a block of this kind?
    pub const fn has_kind(self, kind: u32) -> bool {
        match kind {
            1..=16 => true,
            17 => self.joined,
            18 => self.assemble,
            19 | 20 => self.preempt,
            _ => false,
        }
    }

    /// The highest kind there is.
    pub const fn highest_kind(self) -> u32 {
        let mut kind = LAST_KIND;
        while !self.has_kind(kind) {
            kind -= 1;
        }
        kind
    }

    /// The largest clock and move time.
    pub const fn max_clock(self) -> u64 {
        if self.wide_clocks {
            32_000_000_000
        } else {
            2_000_000_000
        }
    }

    /// The largest sample time.
    pub const fn max_sample(self) -> u64 {
        if self.wide_clocks {
            10_000_000_000
        } else {
            1_000_000
        }
    }

    /// The largest number of a tape or a trace; those of a model keep their size.
    pub const fn max_number(self) -> u64 {
        if self.wide_clocks {
            34_359_738_367
        } else {
            crate::number::MAX_NUMBER
        }
    }
}

/// What the engine does.
impl Default for Rules {
    fn default() -> Rules {
        Rules::LANDED
    }
}
