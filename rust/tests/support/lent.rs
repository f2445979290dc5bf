//! Slices lent from rooms, with margins that are looked at afterwards.

use super::lists::Lists;
use super::room::Room;

/// Bytes beside a lent slice that are looked at too.
const MARGIN: usize = 64;
const PAINT: u8 = 0xa5;
/// Room for every list and file that is tried.
const SIZE: usize = 65536;

/// Where in its room a slice is lent.
#[derive(Clone, Copy, Debug)]
pub enum Edge {
    /// At the start: nothing is readable right before it.
    Start,
    /// At the end: nothing is readable right behind it.
    End,
    /// Between, at an odd address.
    Between,
}

pub const EDGES: [Edge; 3] = [Edge::Start, Edge::End, Edge::Between];

/// A room, and where in it the slice stands that was lent last.
pub struct Lender {
    room: Room,
    start: usize,
    end: usize,
}

impl Lender {
    pub fn new() -> Lender {
        Lender {
            room: Room::new(SIZE),
            start: 0,
            end: 0,
        }
    }

    /// Puts the bytes into the room, with painted margins, and lends them.
    pub fn lend(&mut self, edge: Edge, bytes: &[u8]) -> &mut [u8] {
        let whole = self.room.bytes();
        let left = whole.len() - bytes.len();
        self.start = match edge {
            Edge::Start => 0,
            Edge::End => left,
            Edge::Between => (left / 2) | 1,
        };
        self.end = self.start + bytes.len();
        let stop = whole.len().min(self.end + MARGIN);
        whole[self.start.saturating_sub(MARGIN)..self.start].fill(PAINT);
        whole[self.end..stop].fill(PAINT);
        let lent = &mut whole[self.start..self.end];
        lent.copy_from_slice(bytes);
        lent
    }

    /// What stands in the lent slice now.
    pub fn lent(&mut self) -> &[u8] {
        &self.room.bytes()[self.start..self.end]
    }

    /// Whether nothing was written right beside the slice.
    pub fn margins_kept(&mut self) -> bool {
        let whole = self.room.bytes();
        let stop = whole.len().min(self.end + MARGIN);
        let before = &whole[self.start.saturating_sub(MARGIN)..self.start];
        let behind = &whole[self.end..stop];
        before.iter().chain(behind).all(|&byte| byte == PAINT)
    }
}

/// The rooms for the four lists of a call of the chooser or the checker.
pub struct Lenders {
    groups: Lender,
    links: Lender,
    marks: Lender,
    amounts: Lender,
}

impl Lenders {
    pub fn new() -> Lenders {
        Lenders {
            groups: Lender::new(),
            links: Lender::new(),
            marks: Lender::new(),
            amounts: Lender::new(),
        }
    }

    /// Lends groups, links, marks and amounts.
    pub fn lend(&mut self, edge: Edge, lists: &Lists) -> [&mut [u8]; 4] {
        [
            self.groups.lend(edge, &lists.groups),
            self.links.lend(edge, &lists.links),
            self.marks.lend(edge, &lists.marks),
            self.amounts.lend(edge, &lists.amounts),
        ]
    }

    /// Panics where something else stands in the lists, or something was written beside them.
    pub fn assert_hold(&mut self, lists: &Lists, told: impl Fn() -> String) {
        for (name, lender, bytes) in [
            ("groups", &mut self.groups, &lists.groups),
            ("links", &mut self.links, &lists.links),
            ("marks", &mut self.marks, &lists.marks),
            ("amounts", &mut self.amounts, &lists.amounts),
        ] {
            assert!(lender.lent() == bytes, "the {} differ; {}", name, told());
            assert!(lender.margins_kept(), "written outside; {}", told());
        }
    }
}
