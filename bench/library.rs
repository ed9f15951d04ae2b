//! The library's calls, and the bytes that go in and come out.
#[rustfmt::skip]
unsafe extern "C" {
    fn embedding_bench_size(capacity: u16) -> usize;
    fn embedding_bench_new(memory: *mut u8, memory_len: usize, capacity: u16) -> u8;
    fn embedding_bench_serve(memory: *mut u8, memory_len: usize, commands: *const u8, commands_len: usize, answers: *mut u8, answers_len: usize) -> usize;
    fn embedding_wide_size(capacity: u16) -> usize;
    fn embedding_wide_new(memory: *mut u8, memory_len: usize, capacity: u16) -> u8;
    fn embedding_wide_serve(memory: *mut u8, memory_len: usize, commands: *const u8, commands_len: usize, answers: *mut u8, answers_len: usize) -> usize;
    fn embedding_city_block(a: *const u8, a_len: usize, b: *const u8, b_len: usize) -> u32;
    fn embedding_hamming(a: *const u8, a_len: usize, b: *const u8, b_len: usize) -> u32;
    fn embedding_circular(a: *const u8, a_len: usize, b: *const u8, b_len: usize) -> u32;
    fn embedding_chebyshev(a: *const u8, a_len: usize, b: *const u8, b_len: usize) -> u32;
}

type Distance = unsafe extern "C" fn(*const u8, usize, *const u8, usize) -> u32;

/// The library's call for one distance: 0 city block, 1 Hamming, 2 circular, 3 Chebyshev.
pub fn metric(number: usize) -> Distance {
    [embedding_city_block, embedding_hamming, embedding_circular, embedding_chebyshev][number]
}

pub fn distance(call: Distance, a: &[u8], b: &[u8]) -> u32 {
    unsafe { call(a.as_ptr(), a.len(), b.as_ptr(), b.len()) }
}

/// An index of the library, in memory of ours.
#[derive(Clone)]
pub struct Index {
    wide: bool,
    memory: Vec<u8>,
}

impl Index {
    pub fn new(wide: bool, capacity: u16) -> Index {
        let size = unsafe { if wide { embedding_wide_size(capacity) } else { embedding_bench_size(capacity) } };
        let mut memory = vec![0; size];
        let begin = if wide { embedding_wide_new } else { embedding_bench_new };
        assert_eq!(unsafe { begin(memory.as_mut_ptr(), memory.len(), capacity) }, 0);
        Index { wide, memory }
    }

    /// Serves commands; how many bytes of the answers are written.
    pub fn serve(&mut self, commands: &[u8], answers: &mut [u8]) -> usize {
        let call = if self.wide { embedding_wide_serve } else { embedding_bench_serve };
        unsafe { call(self.memory.as_mut_ptr(), self.memory.len(), commands.as_ptr(), commands.len(), answers.as_mut_ptr(), answers.len()) }
    }
}

pub fn insert(out: &mut Vec<u8>, accession: u16, rows: &[u8]) {
    out.push(b'L');
    out.extend(accession.to_be_bytes());
    out.extend(rows);
}

pub fn add_pivot(out: &mut Vec<u8>, channel: u8, accession: u16) {
    out.extend([b'P', channel]);
    out.extend(accession.to_be_bytes());
}

pub fn search(out: &mut Vec<u8>, q: &crate::plain::Question) {
    out.extend([b'C', q.aggregate]);
    out.extend(&q.weights);
    out.extend(q.k.to_be_bytes());
    out.extend(q.radius.to_be_bytes());
    out.extend(u32::MAX.to_be_bytes());
    out.extend(&q.rows);
}

/// What one search answered.
pub struct Answer {
    pub complete: bool,
    pub measured: u32,
    pub admitted: u16,
    pub hits: Vec<(u32, u16)>,
}

fn u16_at(b: &[u8], at: usize) -> u16 {
    u16::from_be_bytes([b[at], b[at + 1]])
}

fn u32_at(b: &[u8], at: usize) -> u32 {
    u32::from_be_bytes([b[at], b[at + 1], b[at + 2], b[at + 3]])
}

/// The answers of searches.
pub fn answers(mut b: &[u8]) -> Vec<Answer> {
    let mut all = vec![];
    while !b.is_empty() {
        assert_eq!(b[0..2], [b'C', 0]);
        let named = u16_at(b, 4) as usize;
        let hits = (0..named).map(|i| (u32_at(b, 12 + 6 * i + 2), u16_at(b, 12 + 6 * i))).collect();
        all.push(Answer { complete: u16_at(b, 2) == 1, measured: u32_at(b, 6), admitted: u16_at(b, 10), hits });
        b = &b[12 + 6 * named..];
    }
    all
}
