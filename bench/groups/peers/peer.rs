use rayon::prelude::*;
use std::collections::HashMap;
use std::time::Instant;

fn spin(x: i64, n: u64) -> i64 {
    let mut h = x as u64;
    for i in 0..n { h = (h ^ i).wrapping_mul(6364136223846793005).wrapping_add(1442695040888963407); }
    h as i64
}

fn count<F: Fn(i64) -> i64 + Sync>(n: i64, key: F, threads: usize) -> usize {
    if threads == 0 {
        let mut m: HashMap<i64, u64> = HashMap::new();
        for x in 0..n { *m.entry(key(x)).or_insert(0) += 1; }
        return m.len();
    }
    let pool = rayon::ThreadPoolBuilder::new().num_threads(threads).build().unwrap();
    pool.install(|| {
        (0..n).into_par_iter()
            .fold(HashMap::new, |mut m: HashMap<i64, u64>, x| { *m.entry(key(x)).or_insert(0) += 1; m })
            .reduce(HashMap::new, |mut a, b| { for (k, v) in b { *a.entry(k).or_insert(0) += v; } a })
            .len()
    })
}

fn mapped(n: i64, threads: usize) -> usize {
    if threads == 0 { return (0..n).map(|x| (x, spin(x, 500))).collect::<Vec<_>>().len(); }
    let pool = rayon::ThreadPoolBuilder::new().num_threads(threads).build().unwrap();
    pool.install(|| (0..n).into_par_iter().map(|x| (x, spin(x, 500))).collect::<Vec<_>>().len())
}

fn main() {
    let part: i64 = std::env::args().nth(1).map_or(1, |word| word.parse().unwrap());
    for (work, k, n) in [("cheap", 10i64, 10_000_000i64), ("cheap", 1_000, 10_000_000), ("cheap", 100_000, 10_000_000), ("heavy", 1_024, 1_000_000), ("mapped", 0, 1_000_000)] {
        let n = n / part;
        for threads in [0usize, 1, 4] {
            let mut best = f64::MAX;
            let mut came = 0;
            for round in 0..4 {
                let start = Instant::now();
                came = match work {
                    "cheap" => count(n, |x| x % k, threads),
                    "heavy" => count(n, |x| spin(x, 500) & (k - 1), threads),
                    _ => mapped(n, threads),
                };
                let t = start.elapsed().as_secs_f64() * 1000.0;
                if round > 0 && t < best { best = t; }
            }
            println!("{work} {k} threads {threads}: {best:.1} ms, {came}");
        }
    }
}
