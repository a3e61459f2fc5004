//! A row: what both sides do.
use std::hint::black_box;
use std::time::Instant;

/// One side of a row.
pub trait Side {
    /// What goes before each run and is not measured.
    fn prepare(&mut self) {}
    fn run(&mut self);
    /// How many nanoseconds so many runs take.
    fn turn(&mut self, runs: u64) -> f64 {
        self.prepare();
        let start = Instant::now();
        for _ in 0..runs {
            self.run();
        }
        start.elapsed().as_nanos() as f64
    }
}

impl<F: FnMut()> Side for F {
    fn run(&mut self) {
        self()
    }
}

pub struct Row {
    pub table: &'static str,
    pub name: String,
    /// How many operations one run is made of.
    pub operations: u64,
    /// Is a turn one run? Where something goes before each, or where one takes long enough.
    pub one_run: bool,
    /// The port, the Rust, and where there is a body two copies of it, or one copy of a file. Of a tape: the program, the calls from
    /// C, these with their lines, and the reading alone.
    pub sides: Vec<Box<dyn Side>>,
}

impl Row {
    pub fn new(table: &'static str, name: String, port: impl Side + 'static, rust: impl Side + 'static) -> Row {
        Row { table, name, operations: 1, one_run: false, sides: vec![Box::new(port), Box::new(rust)] }
    }

    /// Beside two copies of a body.
    pub fn beside_copies(mut self, body: &'static [u8]) -> Row {
        let (mut arena, mut out) = (vec![1; body.len()], vec![1; body.len()]);
        self.sides.push(Box::new(move || {
            arena.copy_from_slice(black_box(body));
            out.copy_from_slice(black_box(&arena));
            black_box(&out);
        }));
        self
    }

    /// Beside one copy of a file.
    pub fn beside_copy(mut self, file: &'static [u8]) -> Row {
        let mut out = vec![1; file.len()];
        self.sides.push(Box::new(move || {
            out.copy_from_slice(black_box(file));
            black_box(&out);
        }));
        self
    }
}
