//! A capture loop over aec3-rs with this crate in the place of its controller. Three lines change; each stands below the one that it replaces.
//! Settings that name `target_range_experimental_max_dbfs`, which nothing reads, lose that line besides.
//!
//!     cargo run --offline --example from_aec3_rs
use std::error::Error;

// use ...::audio_processing::agc2::input_volume_controller::{Config, InputVolumeController};
use agc2::{Config, InputVolumeController};

/// In the place of aec3-rs's, which a user keeps: its channels are slices on the 16-bit scale.
struct AudioBuffer {
    channels: [[f32; 480]; 2],
}

impl AudioBuffer {
    fn channel(&self, channel: usize) -> &[f32] {
        &self.channels[channel]
    }

    /// Ten milliseconds at 48 kHz of a tone in two channels, as the device would hand them over at this volume.
    fn captured(volume: i32) -> Self {
        let tone = |loudness: f32| core::array::from_fn(|i| ((i as f32 * 0.13).sin() * loudness * volume as f32).clamp(-32768.0, 32767.0));
        AudioBuffer { channels: [tone(250.0), tone(30.0)] }
    }
}

fn main() -> Result<(), Box<dyn Error>> {
    // let mut controller = InputVolumeController::new(2, Config::default());
    let mut controller = InputVolumeController::new(2, Config::default())?;
    let mut volume = 200;
    for frame in 0..400 {
        let buffer = AudioBuffer::captured(volume);
        // controller.analyze_input_audio(volume, &buffer);
        controller.analyze_channels(volume, &[buffer.channel(0), buffer.channel(1)])?;
        if let Some(recommended) = controller.recommend_input_volume(0.95, Some(-20.0)) {
            if recommended != volume {
                println!("frame {frame:3}: volume {volume:3} -> {recommended:3}");
            }
            volume = recommended;
        }
    }
    println!("volume {volume} at the end");
    Ok(())
}
