//! One row: that both sides answer the same, then the time of each by turns.
use std::fmt::Debug;
use std::hint::black_box;

const TURNS: usize = 5;

#[derive(PartialEq)]
pub enum Effort {
    Full,
    Quick,
    Agree,
}

pub struct Bench {
    effort: Effort,
    wanted: String,
    rows: usize,
    faults: usize,
}

impl Bench {
    pub fn new(effort: Effort, wanted: String) -> Bench {
        if effort != Effort::Agree {
            println!("| operation | ours | Rust's | ours / Rust's |\n|---|---|---|---|");
        }
        Bench { effort, wanted, rows: 0, faults: 0 }
    }

    /// The size of a long text, in MiB.
    pub fn long(&self) -> usize {
        match self.effort {
            Effort::Full => 64,
            Effort::Quick => 4,
            Effort::Agree => 1,
        }
    }

    pub fn wants(&self, name: &str) -> bool {
        name.starts_with(&self.wanted)
    }

    /// A row of two functions that read. A call of either is as many operations as `amount` says, and the row has the time of one of them.
    pub fn row<A: PartialEq + Debug>(&mut self, name: &str, amount: usize, mut ours: impl FnMut() -> A, mut rust: impl FnMut() -> A) {
        if self.wants(name) {
            let agreed = same(name, ours(), rust());
            self.timed(name, amount, agreed, || drop(black_box(ours())), || drop(black_box(rust())));
        }
    }

    /// A row of two functions that write into bytes. What they leave is compared too; each then writes on what it left.
    pub fn writing<A, Ours, Rust>(&mut self, name: &str, amount: usize, start: &[u8], mut ours: Ours, mut rust: Rust)
    where
        A: PartialEq + Debug,
        Ours: FnMut(&mut [u8]) -> A,
        Rust: FnMut(&mut [u8]) -> A,
    {
        if self.wants(name) {
            let (mut left, mut rust_left) = (start.to_vec(), start.to_vec());
            let agreed = same(name, ours(&mut left), rust(&mut rust_left)) && same(name, &left, &rust_left);
            self.timed(name, amount, agreed, || drop(black_box(ours(black_box(&mut left)))), || drop(black_box(rust(black_box(&mut rust_left)))));
        }
    }

    fn timed(&mut self, name: &str, amount: usize, agreed: bool, mut ours: impl FnMut(), mut rust: impl FnMut()) {
        self.rows += 1;
        self.faults += usize::from(!agreed);
        if self.effort == Effort::Agree || !agreed {
            return;
        }
        let seconds = if self.effort == Effort::Quick { 0.004 } else { 0.05 };
        let (our_calls, rust_calls) = (calls_for(seconds, &mut ours), calls_for(seconds, &mut rust));
        let (mut our_times, mut rust_times, mut ratios) = (Vec::new(), Vec::new(), Vec::new());
        for _ in 0..TURNS {
            let our_time = time(our_calls, &mut ours) / our_calls as f64 / amount as f64;
            let rust_time = time(rust_calls, &mut rust) / rust_calls as f64 / amount as f64;
            our_times.push(our_time);
            rust_times.push(rust_time);
            ratios.push(our_time / rust_time);
        }
        println!("| {name} | {} | {} | {:.2} |", shown(median(our_times)), shown(median(rust_times)), median(ratios));
    }

    /// Says how the rows agreed, and answers the exit status.
    pub fn end(&self) -> i32 {
        if self.effort == Effort::Agree {
            println!("bench: {} rows, {} where the two sides differ", self.rows, self.faults);
        }
        if self.rows == 0 {
            eprintln!("bench: no row's name begins with '{}'", self.wanted);
        }
        i32::from(self.faults > 0 || self.rows == 0)
    }
}

fn same<A: PartialEq + Debug>(name: &str, ours: A, rust: A) -> bool {
    if ours == rust {
        return true;
    }
    let front = |answer: A| format!("{answer:?}").chars().take(100).collect::<String>();
    eprintln!("bench: {name}: the two sides differ: ours is {}, Rust's {}", front(ours), front(rust));
    false
}

/// How often something is called so that it takes about so many seconds; its first calls are the warming up.
fn calls_for(seconds: f64, call: &mut impl FnMut()) -> usize {
    let mut calls = 1;
    loop {
        let taken = time(calls, call);
        if taken >= seconds / 4.0 {
            return ((calls as f64 * seconds / taken) as usize).max(1);
        }
        calls *= 2;
    }
}

fn time(calls: usize, call: &mut impl FnMut()) -> f64 {
    let began = now();
    for _ in 0..calls {
        call();
    }
    now() - began
}

/// Seconds of processor time that this thread has had, so that other programs of a busy machine disturb less.
#[cfg(all(target_os = "linux", target_pointer_width = "64"))]
fn now() -> f64 {
    #[repr(C)]
    struct Time {
        seconds: i64,
        nanoseconds: i64,
    }
    extern "C" {
        fn clock_gettime(clock: i32, time: *mut Time) -> i32;
    }
    const OF_THIS_THREAD: i32 = 3;
    let mut time = Time { seconds: 0, nanoseconds: 0 };
    assert_eq!(unsafe { clock_gettime(OF_THIS_THREAD, &mut time) }, 0);
    time.seconds as f64 + time.nanoseconds as f64 * 1e-9
}

#[cfg(not(all(target_os = "linux", target_pointer_width = "64")))]
fn now() -> f64 {
    use std::sync::OnceLock;
    use std::time::Instant;
    static BEGAN: OnceLock<Instant> = OnceLock::new();
    BEGAN.get_or_init(Instant::now).elapsed().as_secs_f64()
}

fn median(mut values: Vec<f64>) -> f64 {
    values.sort_by(f64::total_cmp);
    values[values.len() / 2]
}

/// A time with three figures.
fn shown(seconds: f64) -> String {
    let (value, unit) = match seconds {
        s if s < 1e-6 => (s * 1e9, "ns"),
        s if s < 1e-3 => (s * 1e6, "µs"),
        s => (s * 1e3, "ms"),
    };
    let places = if value < 10.0 { 2 } else { usize::from(value < 100.0) };
    format!("{value:.places$} {unit}")
}
