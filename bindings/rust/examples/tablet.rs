//! A tablet's capture loop in small: a loud voice clips and the volume falls, at once and then with the speech level; quiet speech raises it again.
//!
//!     cargo run --offline --example tablet
use agc2::{Config, InputVolumeController, Refusal};

/// Ten milliseconds at 48 kHz of a tone, as the device would hand it over at this volume.
fn captured(loudness: f32, volume: i32) -> [f32; 480] {
    let mut samples = [0.0; 480];
    for (i, sample) in samples.iter_mut().enumerate() {
        let tone = (i as f32 * 0.13).sin() * loudness * volume as f32;
        *sample = tone.clamp(-32768.0, 32767.0);
    }
    samples
}

fn main() -> Result<(), Refusal> {
    let mut controller = InputVolumeController::new(1, Config::default())?;
    let mut volume = 200;
    for frame in 0..900 {
        let (loudness, speech_level) = match frame {
            0..100 => (30.0, -40.0),
            100..400 => (250.0, -20.0),
            _ => (10.0, -60.0),
        };
        let taken = controller.analyze_input_audio(volume, 480, &captured(loudness, volume))?;
        let Some(recommended) = controller.recommend_input_volume(0.95, Some(speech_level)) else { continue };
        if recommended != volume {
            println!("frame {frame:3}: volume {volume:3} -> {recommended:3}{}", if taken.near { ", near an edge" } else { "" });
            volume = recommended;
        }
    }
    println!("volume {volume} at the end");
    Ok(())
}
