//! The bare volume step of the port and of the original side by side, in nanoseconds a step, up and down over a number of volumes. The two take turns, and the least of many turns counts.
use oracle_probe::audio_processing::agc2::clipping_predictor::probe::p_volume_update;
use std::hint::black_box;
use std::time::Instant;

unsafe extern "C" {
    safe fn volume_step(wanted: i32, volume: u8, min: u8, max: u8) -> u8;
}

/// More than the whole table rises, so that only the end stops a walk.
const FAR: i32 = 1000;

/// What a walk is asked, and where it ends.
struct Walk {
    wanted: i32,
    volume: u8,
    min: u8,
    max: u8,
    end: u8,
}

/// Nanoseconds for each of `turns` steps, all of which must end where the walk does.
fn time(turns: u32, walk: &Walk, step: impl Fn(i32, u8, u8, u8) -> u8) -> f64 {
    let start = Instant::now();
    for _ in 0..turns {
        let end = black_box(step(black_box(walk.wanted), black_box(walk.volume), black_box(walk.min), black_box(walk.max)));
        assert_eq!(end, walk.end);
    }
    start.elapsed().as_secs_f64() * 1e9 / turns as f64
}

fn main() {
    let rounds = std::env::args().nth(1).and_then(|w| w.parse().ok()).unwrap_or(25);
    println!("direction volumes  port ns  original ns  port/original");
    for (low, high) in [(100, 101), (100, 120), (0, 255)] {
        let up = Walk { wanted: FAR, volume: low, min: 0, max: high, end: high };
        let down = Walk { wanted: -FAR, volume: high, min: low, max: 255, end: low };
        for (name, walk) in [("up", up), ("down", down)] {
            let volumes = high - low;
            let turns = 4_000_000 / (volumes as u32 + 20);
            let (mut port, mut original) = (f64::MAX, f64::MAX);
            for _ in 0..rounds {
                port = port.min(time(turns, &walk, |w, v, l, h| volume_step(w, v, l, h)));
                original = original.min(time(turns, &walk, |w, v, l, h| p_volume_update(w, v.into(), l.into(), h.into()) as u8));
            }
            println!("{name:9} {volumes:7} {port:8.1} {original:12.1} {:14.2}", port / original);
        }
    }
}
