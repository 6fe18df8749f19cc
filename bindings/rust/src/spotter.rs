//! A controller as a word spotter has it.
use crate::{raw, Accepted, InputVolumeController, Refusal};

/// The most channels of a frame through [`Spotter`].
pub const SPOTTER_MAX_CHANNELS: usize = 2;

/// The most samples per channel of a frame through [`Spotter`].
pub const SPOTTER_MAX_SAMPLES_PER_CHANNEL: usize = 160;

/// A controller that is lent to a word spotter ([`InputVolumeController::spotter`]). Its frames have at most 2 channels and 160 samples per channel. It has no way to the entries
/// for larger ones, so a spotter that is handed this alone cannot pass more by accident.
///
/// ```
/// use agc2::{Config, InputVolumeController, Refusal};
///
/// let mut controller = InputVolumeController::new(1, Config::default())?;
/// let mut spotter = controller.spotter();
/// spotter.analyze_input_audio(200, 160, &[0.0; 160])?;
/// assert_eq!(spotter.recommend_input_volume(0.9, Some(-40.0)), Some(200));
/// assert_eq!(spotter.analyze_input_audio(200, 161, &[0.0; 161]), Err(Refusal::FrameLimits));
/// controller.analyze_input_audio(200, 161, &[0.0; 161])?;
/// # Ok::<(), Refusal>(())
/// ```
///
/// The controller's other calls are not here:
///
/// ```compile_fail
/// fn wide(mut spotter: agc2::Spotter<'_>) {
///     spotter.controller.analyze_input_audio(200, 480, &[0.0; 480]);
/// }
/// ```
#[derive(Debug)]
pub struct Spotter<'a> {
    controller: &'a mut InputVolumeController,
}

impl<'a> Spotter<'a> {
    pub(crate) fn new(controller: &'a mut InputVolumeController) -> Self {
        Spotter { controller }
    }

    /// A frame, as [`InputVolumeController::analyze_input_audio`].
    ///
    /// # Errors
    ///
    /// Those of [`InputVolumeController::analyze_input_audio`], then [`Refusal::FrameLimits`] for more than 2 channels or 160 samples per channel.
    pub fn analyze_input_audio(&mut self, applied_input_volume: i32, samples_per_channel: usize, samples: &[f32]) -> Result<Accepted, Refusal> {
        // SAFETY: the state is one that the library handed out, and the pointer and the length are the slice's, which is not ours.
        unsafe {
            raw::agc2_spotter_analyze_input_audio_into(&mut self.controller.raw, applied_input_volume, samples_per_channel, samples.as_ptr(), samples.len())
        };
        self.controller.framed()
    }

    /// The same with a volume for each channel, as [`InputVolumeController::analyze_input_audio_each`].
    ///
    /// # Errors
    ///
    /// Those of [`InputVolumeController::analyze_input_audio_each`], then [`Refusal::FrameLimits`].
    pub fn analyze_input_audio_each(&mut self, volumes: &[i32], samples_per_channel: usize, samples: &[f32]) -> Result<Accepted, Refusal> {
        // SAFETY: the state is one that the library handed out, and the pointers and the lengths are the slices', which are not ours.
        unsafe {
            raw::agc2_spotter_analyze_input_audio_each_into(
                &mut self.controller.raw,
                volumes.as_ptr(),
                volumes.len(),
                samples_per_channel,
                samples.as_ptr(),
                samples.len(),
            )
        };
        self.controller.framed()
    }

    /// The volume to apply, or none: [`InputVolumeController::recommend_input_volume`].
    pub fn recommend_input_volume(&mut self, speech_probability: f32, speech_level_dbfs: Option<f32>) -> Option<i32> {
        self.controller.recommend_input_volume(speech_probability, speech_level_dbfs)
    }

    /// The controller's volume.
    pub fn recommended_input_volume(&self) -> i32 {
        self.controller.recommended_input_volume()
    }
}
