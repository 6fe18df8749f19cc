//! Samples as devices give them. The library's own converters put them in a frame's order and on its scale.
use crate::{raw, Accepted, InputVolumeController, Refusal, MAX_CHANNELS, MAX_SAMPLES_PER_CHANNEL};

/// Puts interleaved 16-bit samples, in each moment channel after channel, in a frame's order, all moments of a channel and then the next one's: with n whole moments,
/// `frame[c * n + i]` is `samples[i * channels + c]`, exactly. Samples behind the last whole moment are left out. Nothing is written where the frame has less room than `n * channels`, or
/// `channels` is 0.
///
/// ```
/// use agc2::{frame_of_interleaved_i16, Config, InputVolumeController, Refusal};
///
/// let mut controller = InputVolumeController::new(2, Config::default())?;
/// let mut frame = [0.0; 6];
/// frame_of_interleaved_i16(2, &[1, -10, 2, -20, 3, -30], &mut frame);
/// assert_eq!(frame, [1.0, 2.0, 3.0, -10.0, -20.0, -30.0]);
/// controller.analyze_input_audio_each(&[120, 90], 3, &frame)?;
/// # Ok::<(), Refusal>(())
/// ```
pub fn frame_of_interleaved_i16(channels: usize, samples: &[i16], frame: &mut [f32]) {
    // SAFETY: the pointers and the lengths are the slices', of which only the second is written and nothing else refers to it.
    unsafe { raw::agc2_frame_of_interleaved_i16(channels, samples.as_ptr(), samples.len(), frame.as_mut_ptr(), frame.len()) };
}

/// Puts samples from -1.0 to 1.0 on a frame's scale: `frame[k]` is `samples[k]` times 32,768. Nothing is written where the frame has less room than the samples need.
pub fn frame_of_unit(samples: &[f32], frame: &mut [f32]) {
    // SAFETY: the pointers and the lengths are the slices', of which only the second is written and nothing else refers to it.
    unsafe { raw::agc2_frame_of_unit(samples.as_ptr(), samples.len(), frame.as_mut_ptr(), frame.len()) };
}

/// No frame that an entry takes has more samples.
const LARGEST: usize = MAX_CHANNELS * MAX_SAMPLES_PER_CHANNEL;

/// Each of these is [`InputVolumeController::analyze_input_audio`] of the frame that is meant, made in a buffer on the stack.
impl InputVolumeController {
    /// A frame of interleaved 16-bit samples, in each moment channel after channel, `samples_per_channel` moments in all.
    ///
    /// # Errors
    ///
    /// Those of [`InputVolumeController::analyze_input_audio`].
    pub fn analyze_interleaved_i16(&mut self, applied_input_volume: i32, samples_per_channel: usize, samples: &[i16]) -> Result<Accepted, Refusal> {
        let mut largest = [0.0; LARGEST];
        let Some(frame) = largest.get_mut(..samples.len()) else { return self.analyze_no_frame(applied_input_volume) };
        // The entry tests whether the controller has as many channels, and whether nothing is left over.
        let channels = samples.len().checked_div(samples_per_channel).unwrap_or(0);
        frame_of_interleaved_i16(channels, samples, frame);
        self.analyze_input_audio(applied_input_volume, samples_per_channel, frame)
    }

    /// A frame whose channels are slices of their own, on the 16-bit scale.
    ///
    /// # Errors
    ///
    /// Those of [`InputVolumeController::analyze_input_audio`]; channels of unequal lengths have no frame's size.
    pub fn analyze_channels(&mut self, applied_input_volume: i32, channels: &[&[f32]]) -> Result<Accepted, Refusal> {
        self.analyze_put(applied_input_volume, channels, |channel, part| part.copy_from_slice(channel))
    }

    /// The same with samples from -1.0 to 1.0.
    ///
    /// # Errors
    ///
    /// Those of [`InputVolumeController::analyze_channels`].
    pub fn analyze_unit_channels(&mut self, applied_input_volume: i32, channels: &[&[f32]]) -> Result<Accepted, Refusal> {
        self.analyze_put(applied_input_volume, channels, frame_of_unit)
    }

    /// The frame into whose parts, each as long as its channel, the channels are put.
    fn analyze_put(&mut self, applied_input_volume: i32, channels: &[&[f32]], put: fn(&[f32], &mut [f32])) -> Result<Accepted, Refusal> {
        let mut largest = [0.0; LARGEST];
        let samples_per_channel = channels.first().map_or(0, |channel| channel.len());
        let mut count = 0;
        for channel in channels {
            let part = largest.get_mut(count..count + samples_per_channel).filter(|part| part.len() == channel.len());
            let Some(part) = part else { return self.analyze_no_frame(applied_input_volume) };
            put(channel, part);
            count += samples_per_channel;
        }
        self.analyze_input_audio(applied_input_volume, samples_per_channel, &largest[..count])
    }

    /// What does not fit the buffer, or has no size, is no frame of any controller. The entry itself refuses it, so that a wrong volume comes first.
    fn analyze_no_frame(&mut self, applied_input_volume: i32) -> Result<Accepted, Refusal> {
        self.analyze_input_audio(applied_input_volume, 0, &[])
    }
}
