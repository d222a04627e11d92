//! Strong components of a directed graph, by Tarjan's search with an explicit stack.
//!
//! Two vertices share a component exactly when walks lead from each to the other. Components are
//! numbered so that an edge never leads to a component with a higher number than its own:
//! whoever goes through them from 0 up has seen everything that a component leads to.

const UNSEEN: usize = usize::MAX;

/// The component of each vertex of a graph with vertices `0..count`. `successor(v, i)` is the
/// `i`-th successor of `v`, counted from 0, or `None` past the last.
pub fn strong_components(
    count: usize,
    successor: impl Fn(usize, usize) -> Option<usize>,
) -> Vec<usize> {
    let mut search = Search::new(count);
    for root in 0..count {
        if search.order[root] == UNSEEN {
            search.run(root, &successor);
        }
    }
    search.component
}

struct Search {
    order: Vec<usize>,
    /// The lowest order that is known to be reached while its vertex still waits.
    low: Vec<usize>,
    component: Vec<usize>,
    /// Vertices that were met and belong to no finished component yet.
    waiting: Vec<usize>,
    /// The present walk: a vertex, and which of its successors comes next.
    walk: Vec<(usize, usize)>,
    met: usize,
    finished: usize,
}

impl Search {
    fn new(count: usize) -> Search {
        Search {
            order: vec![UNSEEN; count],
            low: vec![UNSEEN; count],
            component: vec![UNSEEN; count],
            waiting: Vec::new(),
            walk: Vec::new(),
            met: 0,
            finished: 0,
        }
    }

    fn run(&mut self, root: usize, successor: &impl Fn(usize, usize) -> Option<usize>) {
        self.enter(root);
        while let Some(&(vertex, index)) = self.walk.last() {
            match successor(vertex, index) {
                Some(next) => {
                    self.step_on();
                    self.meet(vertex, next);
                }
                None => self.leave(vertex),
            }
        }
    }

    fn step_on(&mut self) {
        if let Some(place) = self.walk.last_mut() {
            place.1 += 1;
        }
    }

    fn enter(&mut self, vertex: usize) {
        self.order[vertex] = self.met;
        self.low[vertex] = self.met;
        self.met += 1;
        self.waiting.push(vertex);
        self.walk.push((vertex, 0));
    }

    fn meet(&mut self, vertex: usize, next: usize) {
        if self.order[next] == UNSEEN {
            self.enter(next);
        } else if self.component[next] == UNSEEN {
            self.low[vertex] = self.low[vertex].min(self.order[next]);
        }
    }

    fn leave(&mut self, vertex: usize) {
        self.walk.pop();
        if let Some(&(parent, _)) = self.walk.last() {
            self.low[parent] = self.low[parent].min(self.low[vertex]);
        }
        if self.low[vertex] == self.order[vertex] {
            self.finish(vertex);
        }
    }

    fn finish(&mut self, head: usize) {
        while let Some(vertex) = self.waiting.pop() {
            self.component[vertex] = self.finished;
            if vertex == head {
                break;
            }
        }
        self.finished += 1;
    }
}

#[cfg(test)]
mod tests {
    use super::*;
    use crate::rng::Rng;

    fn components(graph: &[Vec<usize>]) -> Vec<usize> {
        strong_components(graph.len(), |v, i| graph[v].get(i).copied())
    }

    fn random_graph(rng: &mut Rng) -> Vec<Vec<usize>> {
        let count = rng.between(1, 12);
        let most = rng.between(1, 4);
        (0..count)
            .map(|_| {
                (0..rng.between(0, most))
                    .map(|_| rng.below(count))
                    .collect()
            })
            .collect()
    }

    /// Whether a walk of any length, none included, leads from one vertex to another.
    fn closure(graph: &[Vec<usize>]) -> Vec<Vec<bool>> {
        let count = graph.len();
        let mut leads: Vec<Vec<bool>> = (0..count)
            .map(|v| {
                (0..count)
                    .map(|w| v == w || graph[v].contains(&w))
                    .collect()
            })
            .collect();
        for middle in 0..count {
            for from in 0..count {
                for to in 0..count {
                    leads[from][to] |= leads[from][middle] && leads[middle][to];
                }
            }
        }
        leads
    }

    #[test]
    fn two_cycles_and_a_bridge() {
        let graph = [vec![1], vec![0, 2], vec![3], vec![2]];
        assert_eq!(components(&graph), [1, 1, 0, 0]);
    }

    #[test]
    fn vertices_share_a_component_exactly_when_walks_lead_there_and_back() {
        let mut rng = Rng::new(0x5cc);
        let mut shared = 0;
        for _ in 0..2_000 {
            let graph = random_graph(&mut rng);
            let leads = closure(&graph);
            let component = components(&graph);
            for v in 0..graph.len() {
                for w in 0..graph.len() {
                    let both = leads[v][w] && leads[w][v];
                    assert_eq!(component[v] == component[w], both, "{graph:?} {v} {w}");
                    assert!(
                        !leads[v][w] || component[w] <= component[v],
                        "{graph:?} {v} {w}"
                    );
                    shared += usize::from(both && v != w);
                }
            }
        }
        assert!(shared > 10_000, "only {shared} pairs shared a component");
    }
}
