//! Machine sheets for the benchmarks, the same in every run.

use checker::format::EDGES;
use checker::rng::Rng;

/// A machine to be laid out as a sheet. Nodes count from 0; node 0 is the only start.
#[derive(Clone)]
pub struct Plan {
    pub signals: u16,
    /// The signal word of each node.
    pub words: Vec<u16>,
    /// The targets of the records that each node has alone, the first ones of its chain.
    pub heads: Vec<Vec<usize>>,
    /// Targets of records that chains share.
    pub tails: Vec<Vec<usize>>,
    /// The tail in which the chain of each node ends; a node that is not named here has none.
    pub ends: Vec<usize>,
}

impl Plan {
    /// A machine where no records are shared, and signal 1 is on at one node.
    pub fn marked(heads: Vec<Vec<usize>>, node: usize) -> Plan {
        Plan {
            signals: 1,
            words: (0..heads.len()).map(|at| u16::from(at == node)).collect(),
            heads,
            tails: Vec::new(),
            ends: Vec::new(),
        }
    }

    /// The same with so many signals, each on or off at random.
    pub fn with_signals(mut self, rng: &mut Rng, signals: u16) -> Plan {
        self.signals = signals;
        self.words = self
            .words
            .iter()
            .map(|_| rng.below(1 << signals) as u16)
            .collect();
        self
    }

    /// The same with so many tails of one length, which take all records that are left. The nodes' chains end in them in turn; the
    /// targets are by tail and place.
    pub fn with_tails(mut self, tails: usize, target: impl Fn(usize, usize) -> usize) -> Plan {
        let length = self.room() / tails;
        let targets = |tail| (0..length).map(|place| target(tail, place)).collect();
        self.tails = (0..tails).map(targets).collect();
        self.ends = (0..self.heads.len()).map(|node| node % tails).collect();
        self
    }

    /// The records that are left for tails.
    pub fn room(&self) -> usize {
        EDGES - self.heads.iter().map(Vec::len).sum::<usize>()
    }

    pub fn sheet(&self) -> Vec<u16> {
        let nodes = self.heads.len();
        let chains: Vec<&Vec<usize>> = self.heads.iter().chain(&self.tails).collect();
        let mut firsts = vec![1];
        for targets in &chains {
            firsts.push(firsts[firsts.len() - 1] + targets.len());
        }
        let records = firsts[chains.len()] - 1;
        let mut sheet = vec![nodes as u16, self.signals, records as u16];
        for (node, (&word, &first)) in self.words.iter().zip(&firsts).enumerate() {
            sheet.extend([word, u16::from(node == 0), first as u16]);
        }
        for (chain, targets) in chains.iter().enumerate() {
            let tail = self.ends.get(chain).map_or(0, |&end| firsts[nodes + end]);
            for (place, &target) in targets.iter().enumerate() {
                let next = match place + 1 == targets.len() {
                    true => tail,
                    false => firsts[chain] + place + 1,
                };
                sheet.extend([target as u16 + 1, next as u16]);
            }
        }
        sheet
    }

    /// The same with its nodes but the start in another order.
    pub fn reordered(&self, rng: &mut Rng) -> Plan {
        let mut order: Vec<usize> = (1..self.heads.len()).collect();
        rng.shuffle(&mut order);
        order.insert(0, 0);
        let mut places = vec![0; order.len()];
        for (place, &node) in order.iter().enumerate() {
            places[node] = place;
        }
        let moved = |targets: &Vec<usize>| targets.iter().map(|&target| places[target]).collect();
        Plan {
            signals: self.signals,
            words: order.iter().map(|&node| self.words[node]).collect(),
            heads: order.iter().map(|&node| moved(&self.heads[node])).collect(),
            tails: self.tails.iter().map(moved).collect(),
            ends: order
                .iter()
                .filter_map(|&node| self.ends.get(node).copied())
                .collect(),
        }
    }
}

/// Each node goes to the next, the last to the first.
pub fn ring(nodes: usize) -> Vec<Vec<usize>> {
    (0..nodes).map(|node| vec![(node + 1) % nodes]).collect()
}

/// Each node goes to the next, the last to itself.
pub fn line(nodes: usize) -> Vec<Vec<usize>> {
    (0..nodes)
        .map(|node| vec![(node + 1).min(nodes - 1)])
        .collect()
}

/// The same with the nodes in the other order: each node goes to the one before it.
pub fn backwards(targets: Vec<Vec<usize>>) -> Vec<Vec<usize>> {
    let last = targets.len() - 1;
    let other = |list: Vec<usize>| list.into_iter().map(|target| last - target).collect();
    targets.into_iter().rev().map(other).collect()
}

/// So many different random targets a node.
pub fn random(rng: &mut Rng, nodes: usize, edges: usize) -> Vec<Vec<usize>> {
    let mut all: Vec<usize> = (0..nodes).collect();
    (0..nodes)
        .map(|_| {
            rng.shuffle(&mut all);
            all[..edges].to_vec()
        })
        .collect()
}
