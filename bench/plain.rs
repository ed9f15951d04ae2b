//! Plain Rust: the metrics, the full scan, the step rule over a table of numbers, and refinement that measures a patch whole.
use std::cmp::Reverse;
use std::collections::BinaryHeap;

pub fn city_block(a: &[u8], b: &[u8]) -> u32 {
    a.iter().zip(b).map(|(x, y)| x.abs_diff(*y) as u32).sum()
}

pub fn hamming(a: &[u8], b: &[u8]) -> u32 {
    a.iter().zip(b).map(|(x, y)| (x ^ y).count_ones()).sum()
}

pub fn circular(a: &[u8], b: &[u8]) -> u32 {
    let way = |(x, y): (&u8, &u8)| {
        let d = x.wrapping_sub(*y);
        d.min(d.wrapping_neg()) as u32
    };
    a.iter().zip(b).map(way).sum()
}

pub fn chebyshev(a: &[u8], b: &[u8]) -> u32 {
    a.iter().zip(b).map(|(x, y)| x.abs_diff(*y) as u32).max().unwrap_or(0)
}

/// By its number.
pub fn distance(metric: usize, a: &[u8], b: &[u8]) -> u32 {
    match metric {
        0 => city_block(a, b),
        1 => hamming(a, b),
        2 => circular(a, b),
        _ => chebyshev(a, b),
    }
}

fn greatest(metric: usize, width: usize) -> u32 {
    [255 * width, 8 * width, 128 * width, 255][metric] as u32
}

/// The channels of a set: where each one's rows lie in a patch. Channel c has the metric c modulo 4.
#[derive(Clone)]
pub struct Channels {
    pub widths: Vec<usize>,
    pub starts: Vec<usize>,
    pub bytes: usize,
}

impl Channels {
    pub fn new(widths: &[usize]) -> Channels {
        let mut starts = vec![];
        let mut bytes = 0;
        for w in widths {
            starts.push(bytes);
            bytes += w;
        }
        Channels { widths: widths.to_vec(), starts, bytes }
    }

    fn row<'a>(&self, c: usize, rows: &'a [u8]) -> &'a [u8] {
        &rows[self.starts[c]..self.starts[c] + self.widths[c]]
    }

    fn distance(&self, c: usize, a: &[u8], b: &[u8]) -> u32 {
        distance(c % 4, self.row(c, a), self.row(c, b))
    }
}

pub struct Question {
    pub rows: Vec<u8>,
    pub weights: Vec<u8>,
    pub aggregate: u8,
    pub k: u16,
    pub radius: u32,
}

impl Question {
    fn combine(&self, xs: &[u32]) -> u32 {
        match self.aggregate {
            0 => xs.iter().sum(),
            1 => *xs.iter().max().unwrap(),
            _ => *xs.iter().min().unwrap(),
        }
    }
}

/// Patches, pivots, and the distances between them.
#[derive(Clone)]
pub struct Index {
    pub channels: Channels,
    pub numbers: Vec<u16>,
    pub rows: Vec<u8>,
    pub pivots: Vec<Vec<Vec<u8>>>,
    pub table: Vec<u16>,
}

/// A list of distances and accession numbers, and how many distances it took.
pub struct Answer {
    pub hits: Vec<(u32, u16)>,
    pub measured: u32,
    pub admitted: usize,
}

struct Candidate {
    done: usize,
    slot: usize,
    order: [u8; 8],
    entries: [u32; 8],
}

impl Index {
    pub fn new(channels: Channels) -> Index {
        let pivots = vec![vec![]; channels.widths.len()];
        Index { channels, numbers: vec![], rows: vec![], pivots, table: vec![] }
    }

    fn patch(&self, slot: usize) -> &[u8] {
        &self.rows[slot * self.channels.bytes..][..self.channels.bytes]
    }

    pub fn insert(&mut self, accession: u16, rows: &[u8]) -> bool {
        if self.numbers.contains(&accession) {
            return false;
        }
        self.numbers.push(accession);
        self.rows.extend_from_slice(rows);
        for c in 0..self.pivots.len() {
            for p in 0..8 {
                let d = match self.pivots[c].get(p) {
                    Some(pivot) => distance(c % 4, self.channels.row(c, rows), pivot),
                    None => 0,
                };
                self.table.push(d as u16);
            }
        }
        true
    }

    pub fn add_pivot(&mut self, c: usize, accession: u16) -> bool {
        let Some(slot) = self.numbers.iter().position(|n| *n == accession) else {
            return false;
        };
        let p = self.pivots[c].len();
        let pivot = self.channels.row(c, self.patch(slot)).to_vec();
        let m = self.pivots.len();
        for o in 0..self.numbers.len() {
            let d = distance(c % 4, self.channels.row(c, self.patch(o)), &pivot);
            self.table[(o * m + c) * 8 + p] = d as u16;
        }
        self.pivots[c].push(pivot);
        true
    }

    fn weighted(&self, q: &Question, slot: usize, c: usize) -> u32 {
        q.weights[c] as u32 * self.channels.distance(c, &q.rows, self.patch(slot))
    }

    /// Every distance of every patch.
    #[inline(never)]
    pub fn scan(&self, q: &Question) -> Answer {
        let m = self.pivots.len();
        let mut all: Vec<(u32, u16)> = vec![];
        for slot in 0..self.numbers.len() {
            let mut xs = [0; 8];
            for c in 0..m {
                xs[c] = self.weighted(q, slot, c);
            }
            all.push((q.combine(&xs[..m]), self.numbers[slot]));
        }
        let k = (q.k as usize).min(all.len());
        if k < all.len() {
            all.select_nth_unstable(k);
        }
        all.truncate(k);
        all.sort_unstable();
        all.retain(|x| x.0 <= q.radius);
        Answer { hits: all, measured: (self.numbers.len() * m) as u32, admitted: self.numbers.len() }
    }

    fn near(&self, q: &Question) -> Vec<[u32; 8]> {
        let mut near = vec![[0; 8]; self.pivots.len()];
        for (c, pivots) in self.pivots.iter().enumerate() {
            for (p, pivot) in pivots.iter().enumerate() {
                near[c][p] = distance(c % 4, self.channels.row(c, &q.rows), pivot);
            }
        }
        near
    }

    fn bounds(&self, near: &[[u32; 8]], slot: usize, c: usize) -> (u32, u32) {
        let m = self.pivots.len();
        let (mut lower, mut upper) = (0, greatest(c % 4, self.channels.widths[c]));
        for p in 0..self.pivots[c].len() {
            let far = self.table[(slot * m + c) * 8 + p] as u32;
            lower = lower.max(near[c][p].abs_diff(far));
            upper = upper.min(near[c][p] + far);
        }
        (lower, upper)
    }

    /// The admitted patches by bound and accession number.
    fn admitted(&self, q: &Question) -> BinaryHeap<Reverse<(u32, u16, usize)>> {
        let m = self.pivots.len();
        let near = self.near(q);
        let mut firsts = vec![];
        let mut least: BinaryHeap<u32> = BinaryHeap::new();
        for slot in 0..self.numbers.len() {
            let (mut lowers, mut uppers) = ([0; 8], [0; 8]);
            for c in 0..m {
                let (lower, upper) = self.bounds(&near, slot, c);
                lowers[c] = q.weights[c] as u32 * lower;
                uppers[c] = q.weights[c] as u32 * upper;
            }
            firsts.push(q.combine(&lowers[..m]));
            least.push(q.combine(&uppers[..m]));
            if least.len() > q.k as usize {
                least.pop();
            }
        }
        let limit = if least.len() == q.k as usize { *least.peek().unwrap() } else { u32::MAX };
        let mut heap = BinaryHeap::new();
        for (slot, first) in firsts.iter().enumerate() {
            if *first <= q.radius && *first <= limit {
                heap.push(Reverse((*first, self.numbers[slot], slot)));
            }
        }
        heap
    }

    /// The step rule: the same as the library's, on a table of u16 and std's heap.
    #[inline(never)]
    pub fn refine(&self, q: &Question) -> Answer {
        let m = self.pivots.len();
        let near = self.near(q);
        let mut firsts = Vec::with_capacity(self.numbers.len());
        let mut least: BinaryHeap<u32> = BinaryHeap::new();
        for slot in 0..self.numbers.len() {
            let (mut lowers, mut uppers) = ([0; 8], [0; 8]);
            for c in 0..m {
                let (lower, upper) = self.bounds(&near, slot, c);
                lowers[c] = q.weights[c] as u32 * lower;
                uppers[c] = q.weights[c] as u32 * upper;
            }
            firsts.push(q.combine(&lowers[..m]));
            let upper = q.combine(&uppers[..m]);
            if least.len() < q.k as usize {
                least.push(upper);
            } else if upper < *least.peek().unwrap() {
                *least.peek_mut().unwrap() = upper;
            }
        }
        let limit = if least.len() == q.k as usize { *least.peek().unwrap() } else { u32::MAX };
        let mut candidates = vec![];
        let mut heap = BinaryHeap::new();
        for (slot, first) in firsts.iter().enumerate() {
            if *first > q.radius || *first > limit {
                continue;
            }
            let mut x = Candidate { done: 0, slot, order: [0, 1, 2, 3, 4, 5, 6, 7], entries: [0; 8] };
            let mut gaps = [0; 8];
            for c in 0..m {
                let (lower, upper) = self.bounds(&near, slot, c);
                x.entries[c] = q.weights[c] as u32 * lower;
                gaps[c] = q.weights[c] as u32 * (upper - lower);
            }
            x.order[..m].sort_by_key(|c| Reverse(gaps[*c as usize]));
            heap.push(Reverse((*first, self.numbers[slot], candidates.len())));
            candidates.push(x);
        }
        let admitted = candidates.len();
        let mut hits = vec![];
        let mut measured = 0;
        while hits.len() < q.k as usize {
            let Some(mut top) = heap.peek_mut() else { break };
            let Reverse((bound, number, at)) = *top;
            let x = &mut candidates[at];
            if bound > q.radius {
                break;
            }
            if x.done == m {
                hits.push((bound, number));
                std::collections::binary_heap::PeekMut::pop(top);
                continue;
            }
            let c = x.order[x.done] as usize;
            x.entries[c] = self.weighted(q, x.slot, c);
            x.done += 1;
            measured += 1;
            *top = Reverse((q.combine(&x.entries[..m]), number, at));
        }
        Answer { hits, measured, admitted }
    }

    /// Refinement as it is usually done: a candidate that comes first is measured in every channel.
    pub fn whole(&self, q: &Question) -> Answer {
        let m = self.pivots.len();
        let mut heap = self.admitted(q);
        let admitted = heap.len();
        let mut known = vec![false; self.numbers.len()];
        let mut hits = vec![];
        let mut measured = 0;
        while hits.len() < q.k as usize {
            let Some(Reverse((bound, number, slot))) = heap.pop() else { break };
            if bound > q.radius {
                break;
            }
            if known[slot] {
                hits.push((bound, number));
                continue;
            }
            let mut xs = [0; 8];
            for c in 0..m {
                xs[c] = self.weighted(q, slot, c);
            }
            known[slot] = true;
            measured += m as u32;
            heap.push(Reverse((q.combine(&xs[..m]), number, slot)));
        }
        Answer { hits, measured, admitted }
    }
}
