//! Document 000's network, and Dinic's greatest flow in it. Each net has two nodes, one where its
//! modules send in and one where they take out, with an arc of its weight between them; each pin
//! has an arc to the one and an arc from the other, unbounded both.

use std::collections::VecDeque;

use crate::book::{Book, Mark};
use crate::side::Side;

/// More than any flow there is.
const UNBOUNDED: i64 = 1 << 40;

struct Arc {
    to: usize,
    /// What it can still carry.
    room: i64,
}

/// An arc and its return stand at 2k and 2k + 1, so each is the other's number with the last bit
/// turned. What an arc carries is the room of its return.
struct Network {
    arcs: Vec<Arc>,
    /// The numbers of the arcs that leave each node.
    leaving: Vec<Vec<usize>>,
}

impl Network {
    fn of_nodes(nodes: usize) -> Network {
        Network {
            arcs: Vec::new(),
            leaving: vec![Vec::new(); nodes],
        }
    }

    /// Adds an arc and answers its number.
    fn add(&mut self, from: usize, to: usize, room: i64) -> usize {
        let number = self.arcs.len();
        self.arcs.push(Arc { to, room });
        self.arcs.push(Arc { to: from, room: 0 });
        self.leaving[from].push(number);
        self.leaving[to].push(number + 1);
        number
    }

    fn carried(&self, arc: usize) -> i64 {
        self.arcs[arc ^ 1].room
    }

    /// Each node's distance from the source over arcs with room.
    fn levels(&self, source: usize) -> Vec<Option<usize>> {
        let mut levels = vec![None; self.leaving.len()];
        let mut queue = VecDeque::from([(source, 0)]);
        levels[source] = Some(0);
        while let Some((node, level)) = queue.pop_front() {
            for &arc in &self.leaving[node] {
                let Arc { to, room } = self.arcs[arc];
                if room > 0 && levels[to].is_none() {
                    levels[to] = Some(level + 1);
                    queue.push_back((to, level + 1));
                }
            }
        }
        levels
    }

    /// Pushes up to `most` from a node to the sink, each arc one level on; answers what went.
    fn push(
        &mut self,
        node: usize,
        sink: usize,
        most: i64,
        levels: &[Option<usize>],
        tried: &mut [usize],
    ) -> i64 {
        if node == sink {
            return most;
        }
        let mut gone = 0;
        while tried[node] < self.leaving[node].len() {
            let arc = self.leaving[node][tried[node]];
            let Arc { to, room } = self.arcs[arc];
            if room > 0 && levels[to] == levels[node].map(|level| level + 1) {
                let went = self.push(to, sink, room.min(most - gone), levels, tried);
                self.arcs[arc].room -= went;
                self.arcs[arc ^ 1].room += went;
                gone += went;
                if gone == most {
                    break;
                }
            }
            tried[node] += 1;
        }
        gone
    }

    /// Dinic: push over shortest ways until none leads to the sink.
    fn greatest_flow(&mut self, source: usize, sink: usize) {
        loop {
            let levels = self.levels(source);
            if levels[sink].is_none() {
                return;
            }
            let mut tried = vec![0; self.leaving.len()];
            self.push(source, sink, UNBOUNDED, &levels, &mut tried);
        }
    }

    /// The nodes that reach the sink over arcs with room.
    fn reaching(&self, sink: usize) -> Vec<bool> {
        let mut reaching = vec![false; self.leaving.len()];
        let mut todo = vec![sink];
        reaching[sink] = true;
        while let Some(node) = todo.pop() {
            for &arc in &self.leaving[node] {
                let from = self.arcs[arc].to;
                if self.arcs[arc ^ 1].room > 0 && !reaching[from] {
                    reaching[from] = true;
                    todo.push(from);
                }
            }
        }
        reaching
    }
}

/// What a greatest flow shows.
pub struct Greatest {
    /// What the meter modules reach.
    pub near: Side,
    /// All that does not reach a maker module.
    pub far: Side,
    /// One number for each pin: what its module sends, less what it takes.
    pub flow: Vec<i64>,
}

/// A greatest flow from the modules marked meter to those marked maker.
pub fn greatest(book: &Book, marks: &[Mark]) -> Greatest {
    let modules = book.modules.len();
    let (source, sink) = (modules, modules + 1);
    let mut network = Network::of_nodes(modules + 2 + 2 * book.nets.len());
    for (m, mark) in marks.iter().enumerate() {
        match mark {
            Mark::Free => {}
            Mark::Meter => drop(network.add(source, m, UNBOUNDED)),
            Mark::Maker => drop(network.add(m, sink, UNBOUNDED)),
        }
    }
    let mut pins = Vec::new();
    for (n, net) in book.nets.iter().enumerate() {
        let sent = modules + 2 + 2 * n;
        let taken = sent + 1;
        network.add(sent, taken, i64::from(net.weight));
        for &m in &net.pins {
            let sends = network.add(m, sent, UNBOUNDED);
            let takes = network.add(taken, m, UNBOUNDED);
            pins.push((sends, takes));
        }
    }
    network.greatest_flow(source, sink);
    let set_off =
        |&(sends, takes): &(usize, usize)| network.carried(sends) - network.carried(takes);
    Greatest {
        near: network.levels(source)[..modules]
            .iter()
            .map(Option::is_some)
            .collect(),
        far: network.reaching(sink)[..modules]
            .iter()
            .map(|reaches| !reaches)
            .collect(),
        flow: pins.iter().map(set_off).collect(),
    }
}
