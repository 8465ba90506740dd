//! A maximum flow through a network with whole capacities, by Dinic's method: as long as the sink
//! can be reached, flow is pushed along shortest paths until these are blocked.

use std::collections::VecDeque;

struct Arc {
    to: usize,
    left: i64,
}

/// Arcs stand in pairs: an arc at an even place, its reverse at the next one.
pub struct Network {
    arcs: Vec<Arc>,
    leaving: Vec<Vec<usize>>,
}

/// How far each node lies from the source, and which of its arcs is to be tried next.
struct Search {
    distance: Vec<usize>,
    next: Vec<usize>,
}

const UNREACHED: usize = usize::MAX;

impl Network {
    pub fn new(nodes: usize) -> Network {
        Network {
            arcs: Vec::new(),
            leaving: vec![Vec::new(); nodes],
        }
    }

    /// Adds an arc and answers its place.
    pub fn add(&mut self, from: usize, to: usize, capacity: i64) -> usize {
        let place = self.arcs.len();
        self.arcs.push(Arc { to, left: capacity });
        self.arcs.push(Arc { to: from, left: 0 });
        self.leaving[from].push(place);
        self.leaving[to].push(place + 1);
        place
    }

    /// The flow along the arc at this place.
    pub fn flow(&self, place: usize) -> i64 {
        self.arcs[place + 1].left
    }

    /// Makes the flow from source to sink a largest one and answers its value.
    pub fn fill(&mut self, source: usize, sink: usize) -> i64 {
        let mut value = 0;
        loop {
            let distance = self.distances(source);
            if distance[sink] == UNREACHED {
                return value;
            }
            let next = vec![0; self.leaving.len()];
            let mut search = Search { distance, next };
            value += self.push(&mut search, source, sink, i64::MAX);
        }
    }

    fn distances(&self, source: usize) -> Vec<usize> {
        let mut distance = vec![UNREACHED; self.leaving.len()];
        distance[source] = 0;
        let mut waiting = VecDeque::from([source]);
        while let Some(node) = waiting.pop_front() {
            for &place in &self.leaving[node] {
                let arc = &self.arcs[place];
                if arc.left > 0 && distance[arc.to] == UNREACHED {
                    distance[arc.to] = distance[node] + 1;
                    waiting.push_back(arc.to);
                }
            }
        }
        distance
    }

    /// Pushes up to `most` from a node to the sink along shortest paths; answers how much went.
    fn push(&mut self, search: &mut Search, node: usize, sink: usize, most: i64) -> i64 {
        if node == sink {
            return most;
        }
        let mut pushed = 0;
        while search.next[node] < self.leaving[node].len() {
            let place = self.leaving[node][search.next[node]];
            let Arc { to, left } = self.arcs[place];
            if left > 0 && search.distance[to] == search.distance[node] + 1 {
                let went = self.push(search, to, sink, left.min(most - pushed));
                self.arcs[place].left -= went;
                self.arcs[place ^ 1].left += went;
                pushed += went;
                if pushed == most {
                    return pushed;
                }
            }
            search.next[node] += 1;
        }
        pushed
    }
}
