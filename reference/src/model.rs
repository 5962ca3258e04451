//! A model: what its bytes mean once accepted (01, Blocks and Bytes).
//! Servers, queues, lists, values and blocks are numbered from 1.

/// A model whose numbers are all in range.
#[derive(Clone, Debug, PartialEq, Eq)]
pub struct Model {
    /// 1, or 2 for the 1996 rules (02, item 12).
    pub edition: u32,
    pub facilities: u32,
    /// The capacity of each storage.
    pub capacities: Vec<u32>,
    pub queues: u32,
    pub values: Vec<Sum>,
    pub lists: u32,
    pub counter: u32,
    pub blocks: Vec<Block>,
}

/// 01, Bytes: "These limits are named constants of the model".
impl Model {
    pub const FIRST_EDITION: u32 = 1;
    pub const MAX_FACILITIES: u32 = 32;
    pub const MAX_STORAGES: u32 = 32;
    pub const MAX_CAPACITY: u32 = 65_535;
    pub const MAX_QUEUES: u32 = 32;
    pub const MAX_VALUES: u32 = 8;
    pub const MAX_SUM_TERMS: u32 = 8;
    pub const MAX_LISTS: u32 = 16;
    pub const MAX_COUNTER: u32 = 65_535;
    pub const MAX_BLOCKS: u32 = 256;
    pub const MAX_PRIORITY: u32 = 127;
    pub const MAX_TERMINATE: u32 = 65_535;
    pub const MAX_COPIES: u32 = 255;
    pub const MAX_BACK: u32 = 7;
    pub const MIN_ASSEMBLED: u32 = 2;
    pub const MAX_ASSEMBLED: u32 = 255;
    pub const PARAMETERS: u32 = 4;
    pub const MAX_CONSTANT: u32 = 2_147_483_647;
    pub const MAX_VALUE_NUMBERS: u32 = 64;
    pub const MAX_OPEN_BRACKETS: u32 = 4;
    pub const MAX_MENTIONS: u32 = 2;
    pub const MAX_LIVING: u64 = 1_024;
    pub const MAX_SAMPLES: u32 = 65_535;

    /// Does a PREEMPT name this facility?
    pub fn preempts(&self, facility: u32) -> bool {
        self.blocks.contains(&Block::Preempt { facility })
    }

    /// 02, item 12: "in any ENTER or LEAVE" more than one unit.
    pub fn moves_several_units(&self) -> bool {
        self.blocks.iter().any(|block| match block {
            Block::Enter { units, .. } | Block::Leave { units, .. } => *units > 1,
            _ => false,
        })
    }

    /// The blocks before the joined wait at this number that belong to its
    /// group (02, item 7: "The c blocks before it"), if they are there.
    pub fn group(&self, number: u32) -> Option<std::ops::Range<u32>> {
        match *self.block(number) {
            Block::WaitJoined { back, .. } if back < number => Some(number - back..number),
            _ => None,
        }
    }

    /// Does a group begin with this block?
    pub fn begins_group(&self, number: u32) -> bool {
        let last = self.blocks.len() as u32;
        (1..=Model::MAX_BACK)
            .map(|back| number + back)
            .filter(|joined| *joined <= last)
            .any(|joined| self.group(joined).is_some_and(|g| g.start == number))
    }

    /// Does this block's own term or comparison read the clock, also through values?
    pub fn reads_clock(&self, number: u32) -> bool {
        match self.block(number) {
            Block::WaitIfComparison { comparison } | Block::If { comparison, .. } => {
                self.comparison_has_clock(comparison)
            }
            Block::Let { term, .. } => self.has_clock(term),
            _ => false,
        }
    }

    fn comparison_has_clock(&self, comparison: &Comparison) -> bool {
        self.has_clock(&comparison.left) || self.has_clock(&comparison.right)
    }

    fn has_clock(&self, term: &Term) -> bool {
        let sum = |sum: &Sum| sum.parts.iter().any(|part| self.has_clock(&part.term));
        match term {
            Term::Clock => true,
            Term::Value(number) => sum(&self.values[*number as usize - 1]),
            Term::Comparison(comparison) => self.comparison_has_clock(comparison),
            Term::Bracket(inner) => sum(inner),
            _ => false,
        }
    }

    /// The block with this number.
    pub fn block(&self, number: u32) -> &Block {
        &self.blocks[number as usize - 1]
    }
}

/// The kinds of block with their operands, in the order of 01, Blocks, then of 02.
#[derive(Clone, Debug, PartialEq, Eq)]
pub enum Block {
    Generate { list: u32, priority: u32 },
    Advance { list: u32 },
    Terminate { amount: u32 },
    Seize { facility: u32 },
    Release { facility: u32 },
    Enter { storage: u32, units: u32 },
    Leave { storage: u32, units: u32 },
    WaitIfStatus { code: u32, server: u32 },
    WaitIfComparison { comparison: Comparison },
    If { comparison: Comparison, target: u32 },
    Goto { target: u32 },
    Let { parameter: u32, term: Term },
    Priority { priority: u32 },
    Split { copies: u32, target: u32 },
    Arrive { queue: u32 },
    Depart { queue: u32 },
    WaitJoined { code: u32, server: u32, back: u32 },
    Assemble { count: u32 },
    Preempt { facility: u32 },
    Return { facility: u32 },
}

impl Block {
    /// The number of the kind.
    pub fn kind(&self) -> u32 {
        match self {
            Block::Generate { .. } => 1,
            Block::Advance { .. } => 2,
            Block::Terminate { .. } => 3,
            Block::Seize { .. } => 4,
            Block::Release { .. } => 5,
            Block::Enter { .. } => 6,
            Block::Leave { .. } => 7,
            Block::WaitIfStatus { .. } => 8,
            Block::WaitIfComparison { .. } => 9,
            Block::If { .. } => 10,
            Block::Goto { .. } => 11,
            Block::Let { .. } => 12,
            Block::Priority { .. } => 13,
            Block::Split { .. } => 14,
            Block::Arrive { .. } => 15,
            Block::Depart { .. } => 16,
            Block::WaitJoined { .. } => 17,
            Block::Assemble { .. } => 18,
            Block::Preempt { .. } => 19,
            Block::Return { .. } => 20,
        }
    }

    /// The target of IF, GOTO or SPLIT.
    pub fn target(&self) -> Option<u32> {
        match self {
            Block::If { target, .. } | Block::Goto { target } | Block::Split { target, .. } => {
                Some(*target)
            }
            _ => None,
        }
    }
}

/// 01, Blocks: "Relations: 1 =, 2 ≠, 3 <, 4 ≤, 5 >, 6 ≥, signed".
#[derive(Clone, Debug, PartialEq, Eq)]
pub struct Comparison {
    pub left: Term,
    pub relation: u32,
    pub right: Term,
}

/// 01, Blocks: "Terms are a tag and a number". The last two stand only in values.
#[derive(Clone, Debug, PartialEq, Eq)]
pub enum Term {
    Constant(u32),
    MinusConstant(u32),
    Parameter(u32),
    Clock,
    Entries(u32),
    Content(u32),
    UnitsInUse(u32),
    UnitsFree(u32),
    FacilityInUse(u32),
    Value(u32),
    Comparison(Box<Comparison>),
    Bracket(Sum),
}

/// 01, Blocks: "A value is a sum".
#[derive(Clone, Debug, PartialEq, Eq)]
pub struct Sum {
    pub parts: Vec<Part>,
}

/// One signed term of a sum.
#[derive(Clone, Debug, PartialEq, Eq)]
pub struct Part {
    pub minus: bool,
    pub term: Term,
}
