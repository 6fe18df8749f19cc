//! Port, original and floor side by side: a frame with its recommendation, in nanoseconds, and the ratios; and the port's frame with a set of volumes, which are equal, and through the
//! word spotter's entry, where it fits that. They take turns on the same samples, and the least of many turns counts, since a shared machine only ever adds time.
use agc2::{Config, InputVolumeController, SPOTTER_MAX_CHANNELS, SPOTTER_MAX_SAMPLES_PER_CHANNEL};
use oracle::audio_processing::agc2::input_volume_controller as original;
use oracle::audio_processing::audio_buffer::AudioBuffer;
use std::hint::black_box;
use std::time::Instant;

unsafe extern "C" {
    safe fn floor_of(samples: *const f32, channels: usize, samples_per_channel: usize) -> f32;
}

const FRAMES: usize = 16;
const VOLUME: i32 = 200;

/// Frames with peaks around the threshold, none of which clips.
fn frames(channels: usize, samples: usize) -> Vec<Vec<f32>> {
    let mut seed = 12345u32;
    (0..FRAMES)
        .map(|k| {
            (0..channels * samples)
                .map(|i| {
                    seed = seed.wrapping_mul(1664525).wrapping_add(1013904223);
                    if i % samples == 7 { if k % 2 == 0 { 29400.0 } else { 20000.0 } } else { ((seed >> 8) % 12000) as f32 - 6000.0 }
                })
                .collect()
        })
        .collect()
}

fn buffers(lent: &[Vec<f32>], channels: usize, samples: usize) -> Vec<AudioBuffer> {
    lent.iter()
        .map(|f| {
            let mut b = AudioBuffer::new(samples, channels, samples, channels, samples);
            for c in 0..channels {
                b.channel_mut(c).copy_from_slice(&f[c * samples..(c + 1) * samples]);
            }
            b
        })
        .collect()
}

/// Nanoseconds for each of `turns` calls.
fn time(turns: usize, mut call: impl FnMut(usize)) -> f64 {
    let start = Instant::now();
    for k in 0..turns {
        call(k % FRAMES);
    }
    start.elapsed().as_secs_f64() * 1e9 / turns as f64
}

struct Case {
    port: f64,
    set: f64,
    spotter: f64,
    original: f64,
    floor: f64,
}

/// With the wait over every frame is tested; else a first frame clips, and the wait is longer than the run.
fn measure(channels: usize, samples: usize, over: bool, rounds: usize) -> Case {
    let turns = 20000 / channels * 480 / samples;
    let wait = if over { 0 } else { 65535 };
    let lent = frames(channels, samples);
    let kept = buffers(&lent, channels, samples);
    let clipped = vec![32767.0f32; channels * samples];
    let clipped_kept = &buffers(&[clipped.clone()], channels, samples)[0];
    let volumes = vec![VOLUME; channels];
    let short = channels <= SPOTTER_MAX_CHANNELS && samples <= SPOTTER_MAX_SAMPLES_PER_CHANNEL;
    let mut best = Case { port: f64::MAX, set: f64::MAX, spotter: f64::MAX, original: f64::MAX, floor: f64::MAX };
    for _ in 0..rounds {
        let mut p = InputVolumeController::new(channels as i32, Config { clipped_wait_frames: wait, ..Config::default() }).unwrap();
        let mut o = original::InputVolumeController::new(channels as i32, original::Config { clipped_wait_frames: wait, ..original::Config::default() });
        if !over {
            p.analyze_input_audio(VOLUME, samples, &clipped).unwrap();
            o.analyze_input_audio(VOLUME, clipped_kept);
        }
        let (mut s, mut w) = (p.clone(), p.clone());
        let (mut a, mut b, mut c, mut d) = (0i64, 0i64, 0i64, 0i64);
        let port = time(turns, |k| {
            let _ = black_box(p.analyze_input_audio(VOLUME, samples, black_box(&lent[k])));
            a += p.recommend_input_volume(black_box(0.9), black_box(Some(-40.0))).unwrap() as i64;
        });
        let original = time(turns, |k| {
            o.analyze_input_audio(VOLUME, black_box(&kept[k]));
            b += o.recommend_input_volume(black_box(0.9), black_box(Some(-40.0))).unwrap() as i64;
        });
        let set = time(turns, |k| {
            let _ = black_box(s.analyze_input_audio_each(black_box(&volumes), samples, black_box(&lent[k])));
            c += s.recommend_input_volume(black_box(0.9), black_box(Some(-40.0))).unwrap() as i64;
        });
        if short {
            let spotter = time(turns, |k| {
                let _ = black_box(w.spotter().analyze_input_audio(VOLUME, samples, black_box(&lent[k])));
                d += w.recommend_input_volume(black_box(0.9), black_box(Some(-40.0))).unwrap() as i64;
            });
            assert_eq!(d, b, "the spotter's entry and the original differ");
            best.spotter = best.spotter.min(spotter);
        }
        let floor = time(turns, |k| {
            black_box(floor_of(black_box(lent[k].as_ptr()), channels, samples));
        });
        assert_eq!((a, c), (b, b), "port and original differ");
        best.port = best.port.min(port);
        best.set = best.set.min(set);
        best.original = best.original.min(original);
        best.floor = best.floor.min(floor);
    }
    best
}

fn main() {
    let rounds = std::env::args().nth(1).and_then(|w| w.parse().ok()).unwrap_or(15);
    println!("channels samples wait      port ns  original ns  floor ns  port/original  port/floor  with a set ns  spotter ns");
    for samples in [160, 480] {
        for channels in [1, 2, 8] {
            for over in [true, false] {
                let c = measure(channels, samples, over, rounds);
                println!(
                    "{channels:8} {samples:7} {:8} {:8.0} {:12.0} {:9.0} {:14.2} {:11.2} {:14.0} {:>11}",
                    if over { "over" } else { "not over" },
                    c.port,
                    c.original,
                    c.floor,
                    c.port / c.original,
                    c.port / c.floor,
                    c.set,
                    if c.spotter < f64::MAX { format!("{:.0}", c.spotter) } else { "-".to_string() }
                );
            }
        }
    }
}
