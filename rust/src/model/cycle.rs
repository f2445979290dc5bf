//! Whether links have a cycle, by a search in depth that colours the groups.

use super::Pair;

#[derive(Clone, Copy)]
enum Colour {
    /// Not come to yet.
    White,
    /// On the path that is being followed.
    Grey,
    /// Left behind: no path from here runs into a cycle.
    Black,
}

/// Whether the links between n groups have a cycle. The links ascend, so those from one group stand
/// together.
pub(super) fn has_cycle(n: usize, links: &[Pair]) -> bool {
    // The links from group g are number first[g] up to first[g + 1].
    let mut first = vec![0; n + 1];
    for &(from, _) in links {
        first[from as usize + 1] += 1;
    }
    for g in 0..n {
        first[g + 1] += first[g];
    }
    let mut colours = vec![Colour::White; n];
    (0..n).any(|g| meets_cycle(g, links, &first, &mut colours))
}

/// Whether a path from group g runs into a cycle: it does where it comes back to a group on the
/// path itself.
fn meets_cycle(g: usize, links: &[Pair], first: &[usize], colours: &mut [Colour]) -> bool {
    match colours[g] {
        Colour::Black => false,
        Colour::Grey => true,
        Colour::White => {
            colours[g] = Colour::Grey;
            let mut from_g = links[first[g]..first[g + 1]].iter();
            if from_g.any(|&(_, to)| meets_cycle(to as usize, links, first, colours)) {
                return true;
            }
            colours[g] = Colour::Black;
            false
        }
    }
}

#[cfg(test)]
mod tests {
    use super::has_cycle;

    #[test]
    fn a_diamond_has_none_and_a_way_back_makes_one() {
        assert!(!has_cycle(4, &[(0, 1), (0, 2), (1, 3), (2, 3)]));
        assert!(has_cycle(4, &[(0, 1), (0, 2), (1, 3), (2, 3), (3, 0)]));
        assert!(has_cycle(4, &[(0, 1), (2, 3), (3, 2)]));
        assert!(has_cycle(1, &[(0, 0)]));
        assert!(!has_cycle(1, &[]));
    }
}
