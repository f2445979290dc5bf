//! The heaviest closed set by augmenting paths (Dinic's method): from a source through the groups
//! of positive weight, against the links, to a sink behind those of negative weight.

use super::sets::Set;
use super::Pair;
use std::collections::VecDeque;

/// What [`heaviest`] finds.
pub struct Heaviest {
    /// The heaviest closed set, which contains every other of that weight.
    pub set: Set,
    /// That weight.
    pub weight: i128,
    /// For each link what flows from its end to its start. Where the weight is 0 these are amounts
    /// with which no balance is above 0.
    pub amounts: Vec<u64>,
}

/// The largest heaviest closed set, the empty one included, for any weights.
pub fn heaviest(weights: &[i128], links: &[Pair]) -> Heaviest {
    let n = weights.len();
    let (source, sink) = (n, n + 1);
    let mut network = Network::new(n + 2);
    // The end of a link is in the set only with its start. So no cut goes through this arc.
    for &(from, to) in links {
        network.join(to as usize, from as usize, i128::MAX / 2);
    }
    let mut gain = 0;
    for (g, &weight) in weights.iter().enumerate() {
        if weight > 0 {
            network.join(source, g, weight);
            gain += weight;
        } else if weight < 0 {
            network.join(g, sink, -weight);
        }
    }
    let flow = network.fill(source, sink);
    // Those from which the sink can't be reached are the largest source side of all least cuts.
    let reaches = network.reaching(sink);
    Heaviest {
        set: (0..n).map(|g| !reaches[g]).collect(),
        weight: gain - flow,
        amounts: (0..links.len()).map(|k| network.flow(k)).collect(),
    }
}

/// Arcs in pairs: arc 2k goes there and 2k + 1 back, each with the room that is left in it.
struct Network {
    ends: Vec<usize>,
    room: Vec<i128>,
    arcs_from: Vec<Vec<usize>>,
}

impl Network {
    fn new(points: usize) -> Network {
        Network {
            ends: Vec::new(),
            room: Vec::new(),
            arcs_from: vec![Vec::new(); points],
        }
    }

    fn join(&mut self, start: usize, end: usize, room: i128) {
        for (from, to, room) in [(start, end, room), (end, start, 0)] {
            self.arcs_from[from].push(self.ends.len());
            self.ends.push(to);
            self.room.push(room);
        }
    }

    /// What flows through the pair of arcs that was joined as number k: so much can go back.
    fn flow(&self, k: usize) -> u64 {
        u64::try_from(self.room[2 * k + 1]).expect("no more than D·L of the survey")
    }

    /// Sends as much as there is room for, and says how much that was. A turn sends along shortest
    /// paths alone, until none is left.
    fn fill(&mut self, source: usize, sink: usize) -> i128 {
        let mut sent = 0;
        loop {
            let distances = self.distances(source);
            if distances[sink] == usize::MAX {
                return sent;
            }
            let mut next = vec![0; distances.len()];
            sent += self.send(source, sink, i128::MAX, &distances, &mut next);
        }
    }

    /// How many arcs with room in them lead from the source to each point.
    fn distances(&self, source: usize) -> Vec<usize> {
        let mut distances = vec![usize::MAX; self.arcs_from.len()];
        distances[source] = 0;
        let mut waiting = VecDeque::from([source]);
        while let Some(point) = waiting.pop_front() {
            for &arc in &self.arcs_from[point] {
                let end = self.ends[arc];
                if self.room[arc] > 0 && distances[end] == usize::MAX {
                    distances[end] = distances[point] + 1;
                    waiting.push_back(end);
                }
            }
        }
        distances
    }

    /// Sends at most so much from a point to the sink, each arc one step further from the source.
    /// `next` says for each point which of its arcs still leads on in this turn.
    fn send(
        &mut self,
        point: usize,
        sink: usize,
        most: i128,
        distances: &[usize],
        next: &mut [usize],
    ) -> i128 {
        if point == sink {
            return most;
        }
        let mut sent = 0;
        while next[point] < self.arcs_from[point].len() {
            let arc = self.arcs_from[point][next[point]];
            let end = self.ends[arc];
            if self.room[arc] > 0 && distances[point] + 1 == distances[end] {
                let part = self.room[arc].min(most - sent);
                let part = self.send(end, sink, part, distances, next);
                self.room[arc] -= part;
                self.room[arc ^ 1] += part;
                sent += part;
                if sent == most {
                    return sent;
                }
            }
            next[point] += 1;
        }
        sent
    }

    /// The points from which the sink can be reached through arcs with room in them.
    fn reaching(&self, sink: usize) -> Vec<bool> {
        let mut reaches = vec![false; self.arcs_from.len()];
        reaches[sink] = true;
        let mut waiting = vec![sink];
        while let Some(point) = waiting.pop() {
            // The arc to here from the other end is the pair of the one from here.
            for &arc in &self.arcs_from[point] {
                let start = self.ends[arc];
                if self.room[arc ^ 1] > 0 && !reaches[start] {
                    reaches[start] = true;
                    waiting.push(start);
                }
            }
        }
        reaches
    }
}
