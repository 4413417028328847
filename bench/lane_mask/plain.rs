// The plain loops of the benchmark in Rust, over the same lists.
use std::hint::black_box;
use std::time::Instant;

const ROWS: usize = 20_000;
const PASSES: i32 = 1000;
const TRIES: u32 = 9;

#[inline(never)]
fn plain_between(lows: &[i32], highs: &[i32], day: i32, out: &mut [bool]) {
    for ((mark, low), high) in out.iter_mut().zip(lows).zip(highs) {
        *mark = *low <= day && day <= *high;
    }
}

fn plain_at_least(seats: &[u8; 32], party: u8) -> u32 {
    let mut mask = 0;
    for (i, seat) in seats.iter().enumerate() {
        if *seat >= party {
            mask |= 1 << i;
        }
    }
    mask
}

fn next(seed: u32) -> u32 {
    seed.wrapping_mul(1_664_525).wrapping_add(1_013_904_223)
}

fn fastest(mut pass: impl FnMut(i32)) -> f64 {
    (0..TRIES)
        .map(|_| {
            let start = Instant::now();
            (0..PASSES).for_each(&mut pass);
            start.elapsed().as_secs_f64() * 1e6 / PASSES as f64
        })
        .fold(f64::MAX, f64::min)
}

fn main() {
    let mut seed = 1;
    let mut draw = |below: u32| {
        seed = next(seed);
        (seed >> 8) % below
    };
    let (mut lows, mut highs) = (Vec::new(), Vec::new());
    for _ in 0..ROWS {
        let low = draw(366) as i32;
        lows.push(low);
        highs.push(low + draw(120) as i32);
    }
    let mut out = vec![false; ROWS];
    let seasons = fastest(|pass| plain_between(&lows, &highs, pass % 366, black_box(&mut out)));
    println!("between, 20,000 rows that last a season: plain {seasons:.2} us");

    let (lows, highs) = (vec![0; ROWS], vec![365; ROWS]);
    let year = fastest(|pass| plain_between(&lows, &highs, pass % 366, black_box(&mut out)));
    println!("between, 20,000 rows that last the year: plain {year:.2} us");

    let mut seed = 1;
    let mut rows = Vec::new();
    for _ in 0..ROWS {
        let mut seats = [0; 32];
        for seat in &mut seats[..26] {
            seed = next(seed);
            *seat = ((seed >> 8) % 10) as u8;
        }
        rows.push(seats);
    }
    let mut all: u32 = 0;
    let seats = fastest(|pass| {
        let party = black_box((pass % 9 + 1) as u8);
        for row in &rows {
            all = all.wrapping_mul(31) ^ plain_at_least(row, party);
        }
    });
    println!("at_least, 20,000 rows of seats: plain {seats:.2} us");
    black_box(all);
}
