// The same walk in plain Rust, without proofs: reads a script of M, D, L, C, S and P, and writes the lines of S and P.
// It is here to be run beside the proved program on the same script, so it opens the same nodes in the same order and works
// out each rule's answer anew. What it is given is taken to be in order.
use std::io::{Read, Write};

#[derive(Clone, Copy, Default)]
struct Cell {
    strands: u64,
    trunk: bool,
}

trait Measure {
    type Amount: Copy + Ord + Default;
    fn price(a: Cell, b: Cell) -> Self::Amount;
    fn join(x: Self::Amount, y: Self::Amount) -> Self::Amount;
    fn text(x: Self::Amount) -> String;
}

struct ByStrands;

impl Measure for ByStrands {
    type Amount = u64;

    fn price(a: Cell, b: Cell) -> u64 {
        a.strands * b.strands
    }

    fn join(x: u64, y: u64) -> u64 {
        x.saturating_add(y)
    }

    fn text(x: u64) -> String {
        x.to_string()
    }
}

struct ByTrunks;

impl Measure for ByTrunks {
    type Amount = (u64, u64);

    fn price(a: Cell, b: Cell) -> (u64, u64) {
        let product = a.strands * b.strands;
        if a.trunk || b.trunk { (product, 0) } else { (0, product) }
    }

    fn join(x: (u64, u64), y: (u64, u64)) -> (u64, u64) {
        match x.0.checked_add(y.0) {
            Some(trunk) if trunk < u64::MAX => (trunk, x.1.saturating_add(y.1)),
            _ => (u64::MAX, u64::MAX),
        }
    }

    fn text(x: (u64, u64)) -> String {
        format!("{}/{}", x.0, x.1)
    }
}

#[derive(Clone)]
struct Design {
    lefts: usize,
    rights: usize,
    cells: [[Cell; 24]; 24],
}

// A partial drawing.
#[derive(Clone, Default)]
struct Node {
    left: Vec<u8>,
    right: Vec<u8>,
}

struct Level<A> {
    node: Node,
    bound: A,
    tried: usize,
}

struct Search<M: Measure> {
    design: Design,
    lesser: bool,
    best: Node,
    cost: M::Amount,
    opened: u64,
    levels: Vec<Level<M::Amount>>,
}

impl Design {
    // Links of u with links of v, u before v, over a left row.
    fn known<M: Measure>(&self, left: &[u8], u: u8, v: u8) -> M::Amount {
        let mut sum = M::Amount::default();
        for (i, a) in left.iter().enumerate() {
            let one = self.cells[*a as usize][v as usize];
            if one.strands == 0 {
                continue;
            }
            for b in &left[i + 1..] {
                let two = self.cells[*b as usize][u as usize];
                if two.strands > 0 {
                    sum = M::join(sum, M::price(one, two));
                }
            }
        }
        sum
    }

    fn cost<M: Measure>(&self, node: &Node) -> M::Amount {
        let mut sum = M::Amount::default();
        for (i, u) in node.right.iter().enumerate() {
            for v in &node.right[i + 1..] {
                sum = M::join(sum, self.known::<M>(&node.left, *u, *v));
            }
        }
        sum
    }

    fn unplaced(&self, node: &Node) -> Vec<u8> {
        (0..self.rights as u8).filter(|v| !node.right.contains(v)).collect()
    }

    fn answer<M: Measure>(&self, node: &Node, lesser: bool) -> M::Amount {
        let free = self.unplaced(node);
        let mut sum = self.cost::<M>(node);
        for u in &node.right {
            for v in &free {
                sum = M::join(sum, self.known::<M>(&node.left, *u, *v));
            }
        }
        if lesser {
            for (i, u) in free.iter().enumerate() {
                for v in &free[i + 1..] {
                    let one = self.known::<M>(&node.left, *u, *v);
                    let two = self.known::<M>(&node.left, *v, *u);
                    sum = M::join(sum, one.min(two));
                }
            }
        }
        sum
    }

    fn child(&self, node: &Node, at: usize) -> Option<Node> {
        let mut child = node.clone();
        let placed = node.left.len();
        if placed < self.lefts {
            child.left.insert(placed.checked_sub(at)?, placed as u8);
        } else {
            child.right.push(*self.unplaced(node).get(at)?);
        }
        Some(child)
    }

    fn child_count(&self, node: &Node) -> usize {
        if node.left.len() < self.lefts { node.left.len() + 1 } else { self.rights - node.right.len() }
    }
}

impl<M: Measure> Search<M> {
    fn start(design: Design, lesser: bool) -> Search<M> {
        let best = Node {
            left: (0..design.lefts as u8).collect(),
            right: (0..design.rights as u8).collect(),
        };
        let cost = design.cost::<M>(&best);
        let bound = design.answer::<M>(&Node::default(), lesser);
        let mut levels = Vec::new();
        if bound < cost {
            levels.push(Level { node: Node::default(), bound, tried: 0 });
        }
        Search { design, lesser, best, cost, opened: 0, levels }
    }

    fn floor(&self) -> M::Amount {
        let open = self.levels.iter().filter(|level| level.tried < self.design.child_count(&level.node));
        open.map(|level| level.bound).fold(self.cost, |x, y| x.min(y))
    }

    fn next(&mut self) -> Option<(Node, M::Amount)> {
        while let Some(level) = self.levels.last_mut() {
            if let Some(node) = self.design.child(&level.node, level.tried) {
                level.tried += 1;
                return Some((node, level.bound));
            }
            self.levels.pop();
        }
        None
    }

    fn run(&mut self, nodes: u64) -> u64 {
        let mut opened = 0;
        while opened < nodes && self.floor() < self.cost {
            let Some((node, inherited)) = self.next() else { break };
            opened += 1;
            self.opened += 1;
            let bound = inherited.max(self.design.answer::<M>(&node, self.lesser));
            if self.cost <= bound {
                continue;
            }
            if node.right.len() < self.design.rights {
                self.levels.push(Level { node, bound, tried: 0 });
                continue;
            }
            let cost = self.design.cost::<M>(&node);
            if cost < self.cost {
                self.cost = cost;
                self.best = node;
            }
        }
        opened
    }

    fn report(&self) -> String {
        let names = |row: &[u8]| row.iter().map(|s| s.to_string()).collect::<Vec<_>>().join(",");
        let floor = self.floor();
        let word = if floor == self.cost { "done" } else { "open" };
        let size = size(self.design.lefts as u128, self.design.rights as u128);
        let size = if size > 1_000_000_000 { "-".to_string() } else { size.to_string() };
        let (cost, floor) = (M::text(self.cost), M::text(floor));
        let (left, right) = (names(&self.best.left), names(&self.best.right));
        format!("{word} {} {cost} {floor} {size} {left} {right}", self.opened)
    }
}

fn size(lefts: u128, rights: u128) -> u128 {
    let below = (1..=rights).fold(0u128, |below, j| (below + 1).saturating_mul(j));
    (1..=lefts).rev().fold(below, |below, k| (below.saturating_add(1)).saturating_mul(k))
}

fn play<M: Measure>(script: &[u8], lesser: bool, out: &mut impl Write) -> std::io::Result<()> {
    let empty = Design { lefts: 0, rights: 0, cells: [[Cell::default(); 24]; 24] };
    let mut design = empty.clone();
    let mut search: Option<Search<M>> = None;
    let mut at = 3;
    while at < script.len() {
        let ops = &script[at + 1..];
        match script[at] {
            b'D' => {
                design = Design { lefts: ops[0] as usize, rights: ops[1] as usize, ..empty.clone() };
                at += 3;
            }
            b'L' => {
                let cell = &mut design.cells[ops[0] as usize][ops[1] as usize];
                cell.strands += ops[2] as u64;
                cell.trunk |= ops[3] == 1;
                at += 5;
            }
            b'C' => {
                search = Some(Search::start(design.clone(), lesser));
                at += 1;
            }
            b'S' => {
                let nodes = u32::from_be_bytes([ops[0], ops[1], ops[2], ops[3]]) as u64;
                if let Some(search) = &mut search {
                    writeln!(out, "opened {}", search.run(nodes))?;
                }
                at += 5;
            }
            _ => {
                if let Some(search) = &search {
                    writeln!(out, "{}", search.report())?;
                }
                at += 1;
            }
        }
    }
    Ok(())
}

fn main() -> std::io::Result<()> {
    let mut script = Vec::new();
    std::io::stdin().read_to_end(&mut script)?;
    let mut out = std::io::stdout().lock();
    match script[1] {
        1 => play::<ByStrands>(&script, script[2] == 2, &mut out),
        _ => play::<ByTrunks>(&script, script[2] == 2, &mut out),
    }
}
