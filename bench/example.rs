//! The commands of the rules' example, served from Rust.
unsafe extern "C" {
    fn embedding_bench_size(capacity: u16) -> usize;
    fn embedding_bench_new(memory: *mut u8, memory_len: usize, capacity: u16) -> u8;
    fn embedding_bench_serve(
        memory: *mut u8, memory_len: usize, commands: *const u8, commands_len: usize, answers: *mut u8, answers_len: usize,
    ) -> usize;
}

fn main() {
    let commands: &[u8] = &[
        b'L', 0, 5, 10, 10, 10, 10, 0, 0, 0, 0, 0, 0, 16, 16, //
        b'L', 0, 9, 20, 10, 10, 10, 0, 0, 0, 15, 0xF8, 0, 16, 18, //
        b'C', 0, 1, 1, 1, 1, 0, 1, 0, 0, 3, 0xE8, 0, 0, 0, 8, 12, 10, 10, 10, 0, 0, 0, 1, 4, 0, 16, 17, //
        b'U', 0, 8,
    ];
    let mut memory = vec![0u8; unsafe { embedding_bench_size(64) }];
    let mut answers = [0u8; 64];
    let len = unsafe {
        assert_eq!(embedding_bench_new(memory.as_mut_ptr(), memory.len(), 64), 0);
        embedding_bench_serve(
            memory.as_mut_ptr(), memory.len(), commands.as_ptr(), commands.len(), answers.as_mut_ptr(), answers.len(),
        )
    };
    let shown: Vec<String> = answers[..len].iter().map(|b| format!("{b:02X}")).collect();
    println!("{}", shown.join(" "));
}
