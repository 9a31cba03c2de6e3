//! Medians of interleaved runs. Each round times both sides, and times are the thread's own, so that what else the machine does counts little.

use crate::floors::{floor, Held};
use crate::rows::Row;

const ROUNDS: usize = 41;
/// How long one side of a round runs.
const NANOS: f64 = 2e6;

pub fn table(rows: Vec<Row>) {
    let wide = crate::widest(&rows);
    println!(
        "{:<wide$} {:>6} {:>6}  {:<10} {:>12} {:>12} {:>9} {:>6}  middle half",
        "call", "nodes", "bytes", "beside", "its ns", "port ns", "ratio", "floor"
    );
    let mut held = Held::default();
    for row in rows {
        let head = format!("{:<wide$} {:>6}", row.name, row.nodes);
        let least = floor(&row.name, row.nodes);
        let beside = row.beside;
        let sides = row.sides();
        let times = rounds(&sides.other, &sides.port, ROUNDS, NANOS);
        let each = |f: fn(&(f64, f64)) -> f64| times.iter().map(|pair| f(pair) / sides.inputs as f64).collect::<Vec<f64>>();
        let (mut others, mut ports) = (each(|(other, _)| *other), each(|(_, port)| *port));
        let mut ratios: Vec<f64> = times.iter().map(|(other, port)| other / port).collect();
        let middle = quantile(&mut ratios, 2);
        println!(
            "{head} {:>6}  {beside:<10} {:>12.0} {:>12.0} {middle:>9.2} {:>6}  {:.2} to {:.2}",
            sides.bytes / sides.inputs,
            quantile(&mut others, 2),
            quantile(&mut ports, 2),
            held.column(&head, least, middle),
            quantile(&mut ratios, 1),
            quantile(&mut ratios, 3),
        );
    }
    println!("ratio: how often the port does it while the other does it once");
    held.print();
}

/// The medians of both sides over so many rounds, each side running so long in a round.
pub fn both(other: &dyn Fn(), port: &dyn Fn(), count: usize, long: f64) -> (f64, f64) {
    let (mut others, mut ports): (Vec<f64>, Vec<f64>) = rounds(other, port, count, long).into_iter().unzip();
    (quantile(&mut others, 2), quantile(&mut ports, 2))
}

/// Both sides, in turns.
fn rounds(other: &dyn Fn(), port: &dyn Fn(), count: usize, long: f64) -> Vec<(f64, f64)> {
    let (others, ports) = (repeats(other, long), repeats(port, long));
    (0..count).map(|_| (nanos(other, others), nanos(port, ports))).collect()
}

/// How long each of so many runs takes, in nanoseconds.
fn nanos(side: &dyn Fn(), times: usize) -> f64 {
    let start = thread_nanos();
    for _ in 0..times {
        side();
    }
    (thread_nanos() - start) as f64 / times as f64
}

/// The processor time that this thread has had.
fn thread_nanos() -> i64 {
    #[repr(C)]
    struct Time {
        seconds: i64,
        nanos: i64,
    }
    extern "C" {
        fn clock_gettime(clock: i32, time: *mut Time) -> i32;
    }
    const CLOCK_THREAD_CPUTIME_ID: i32 = 3;
    let mut time = Time { seconds: 0, nanos: 0 };
    unsafe { clock_gettime(CLOCK_THREAD_CPUTIME_ID, &mut time) };
    time.seconds * 1_000_000_000 + time.nanos
}

/// So often that a side runs about so long.
fn repeats(side: &dyn Fn(), long: f64) -> usize {
    let mut times = 1;
    loop {
        let each = nanos(side, times);
        if each * times as f64 > long / 4.0 {
            return (long / each).ceil() as usize;
        }
        times *= 2;
    }
}

fn quantile(numbers: &mut [f64], quarter: usize) -> f64 {
    numbers.sort_by(f64::total_cmp);
    numbers[(numbers.len() - 1) * quarter / 4]
}
