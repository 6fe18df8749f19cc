//! The input volume controller of WebRTC's AGC2, over a library in which every function is proved to meet its contract.
//!
//! [`InputVolumeController`] has the names and the meaning of aec3-rs's. What differs: an `AudioBuffer` is one slice, channels one after another,
//! the experimental target is left out of the settings, and what the original asserts is answered with a [`Refusal`], which leaves the controller
//! as it was. A controller may have a clipping predictor of any of the three modes ([`InputVolumeController::with_predictor`]); the original's has one.
//! One for group teaching takes a narrow set of settings ([`InputVolumeController::classroom`]).
//! A word spotter, which must not pass a large frame by accident, is handed a [`Spotter`] and not the controller.
//!
//! A frame is 10 ms of sound, at up to 48 kHz, as floats on the 16-bit scale, -32768 to 32767. Samples from -1.0 to 1.0 are all but silence on it
//! and never clip. What devices give goes through an entry of its own:
//!
//! - interleaved 16-bit samples through [`InputVolumeController::analyze_interleaved_i16`],
//! - a slice for each channel, as an `AudioBuffer` has them, through [`InputVolumeController::analyze_channels`],
//! - the same from -1.0 to 1.0 through [`InputVolumeController::analyze_unit_channels`].
//!
//! A frame with a volume for each channel, and a spotter's, is first made in a buffer of the caller's, by [`frame_of_interleaved_i16`] or [`frame_of_unit`].
//!
//! ```
//! use agc2::{Config, InputVolumeController, Refusal};
//!
//! let mut controller = InputVolumeController::new(1, Config::default())?;
//! let frame = [0.0f32; 480];
//! controller.analyze_input_audio(200, 480, &frame)?;
//! assert_eq!(controller.recommend_input_volume(0.9, Some(-40.0)), Some(200));
//! assert_eq!(controller.analyze_input_audio(256, 480, &frame), Err(Refusal::InputVolume));
//! # Ok::<(), Refusal>(())
//! ```
//!
//! The archive's contracts ask for one thing, a controller that its own making and calls handed out. Nothing outside this crate can write
//! one, so no safe code can break that. The proofs take floats to work as they do by default, and as Rust does: rounded to nearest, with no
//! subnormal number flushed to zero.
//!
//! The stack that a call needs, as measured: 24 KB for a frame, 40 KB for what devices give, up to 21 KB for [`InputVolumeController::stored_record`] and
//! [`InputVolumeController::compute_partial_metrics`] and up to 36 KB for a making that goes into a box (all four in a debug build), 3 KB for any other.
#![no_std]
#![deny(missing_docs, unsafe_op_in_unsafe_fn)]
#![warn(clippy::missing_errors_doc, clippy::undocumented_unsafe_blocks)]

mod predictor;
mod raw;
mod refusal;
mod samples;
mod spotter;

use core::fmt;

pub use predictor::{ClippingPredictorConfig, ClippingPredictorMode};
pub use refusal::{NoRefusal, Refusal};
pub use samples::{frame_of_interleaved_i16, frame_of_unit};
pub use spotter::{Spotter, SPOTTER_MAX_CHANNELS, SPOTTER_MAX_SAMPLES_PER_CHANNEL};

/// The most channels that a controller has.
pub const MAX_CHANNELS: usize = 8;

/// The most samples that a frame has in one channel.
pub const MAX_SAMPLES_PER_CHANNEL: usize = 480;

/// The version of the library that this crate goes with: 10,000 times the major number, 100 times the minor one, and the patch.
pub const VERSION: u32 = 10_000;

/// The version of the archive that is linked, in the same way.
pub fn version() -> u32 {
    // SAFETY: the function takes nothing and asks for nothing.
    unsafe { raw::agc2_version() }
}

/// The settings, as in the original; `target_range_experimental_max_dbfs`, which nothing reads, is left out.
#[derive(Debug, Clone, Copy, PartialEq)]
pub struct Config {
    /// The lowest volume that is recommended, unless the applied one is 0. 0 to 255.
    pub min_input_volume: i32,
    /// Clipping lowers the volume no further than this. 0 to 255.
    pub clipped_level_min: i32,
    /// By how much clipping lowers the volume. 1 to 255.
    pub clipped_level_step: i32,
    /// The share of clipped samples above which a frame counts as clipped.
    pub clipped_ratio_threshold: f32,
    /// How many frames after clipping are not tested. 0 to 65,535.
    pub clipped_wait_frames: i32,
    /// Whether clipping is predicted, whichever predictor the controller is made with.
    pub enable_clipping_predictor: bool,
    /// The highest speech level that is left alone, in dBFS. -90 to 30.
    pub target_range_max_dbfs: i32,
    /// The lowest speech level that is left alone, in dBFS. -90 to 30.
    pub target_range_min_dbfs: i32,
    /// How many frames lie between two corrections. 0 to 65,535; 0 means 1.
    pub update_input_volume_wait_frames: i32,
    /// The probability from which a frame counts as speech. 0 to 1.
    pub speech_probability_threshold: f32,
    /// The share of speech frames from which a correction is made. 0 to 1.
    pub speech_ratio_threshold: f32,
}

impl Default for Config {
    /// The original's default settings.
    fn default() -> Self {
        // SAFETY: the function takes nothing and asks for nothing.
        let c = unsafe { raw::agc2_default_config() };
        Config {
            min_input_volume: c.min_input_volume,
            clipped_level_min: c.clipped_level_min,
            clipped_level_step: c.clipped_level_step,
            clipped_ratio_threshold: c.clipped_ratio_threshold,
            clipped_wait_frames: c.clipped_wait_frames,
            enable_clipping_predictor: c.enable_clipping_predictor != 0,
            target_range_max_dbfs: c.target_range_max_dbfs,
            target_range_min_dbfs: c.target_range_min_dbfs,
            update_input_volume_wait_frames: c.update_input_volume_wait_frames,
            speech_probability_threshold: c.speech_probability_threshold,
            speech_ratio_threshold: c.speech_ratio_threshold,
        }
    }
}

impl Config {
    fn in_numbers(self) -> raw::Config {
        raw::Config {
            min_input_volume: self.min_input_volume,
            clipped_level_min: self.clipped_level_min,
            clipped_level_step: self.clipped_level_step,
            clipped_ratio_threshold: self.clipped_ratio_threshold,
            clipped_wait_frames: self.clipped_wait_frames,
            enable_clipping_predictor: u32::from(self.enable_clipping_predictor),
            target_range_max_dbfs: self.target_range_max_dbfs,
            target_range_min_dbfs: self.target_range_min_dbfs,
            update_input_volume_wait_frames: self.update_input_volume_wait_frames,
            speech_probability_threshold: self.speech_probability_threshold,
            speech_ratio_threshold: self.speech_ratio_threshold,
        }
    }
}

/// A frame that was taken.
#[derive(Debug, Clone, Copy, PartialEq, Eq)]
pub struct Accepted {
    /// Whether it compared levels so close, six thousandths of a dB apart or less, that the original, which rounds logarithms, may have decided otherwise and so
    /// left another state. What follows may then differ from the original without a mark.
    pub near: bool,
}

/// What a channel's ring keeps of a frame, and the metrics over several of these records.
#[derive(Debug, Clone, Copy, PartialEq)]
pub struct Level {
    /// The mean square of the samples; of several records, the mean of theirs.
    pub average: f32,
    /// The largest magnitude.
    pub max: f32,
    /// How many samples are clipped, at 32767 and above or at -32768 and below, an infinity too, and never one that is not a number; of several records, in total.
    pub clipped: u32,
}

/// Recommends the input volume of a capture device from its frames.
#[derive(Clone)]
pub struct InputVolumeController {
    raw: raw::Controller,
}

impl InputVolumeController {
    /// A controller of 1 to 8 channels, with the original's predictor, [`ClippingPredictorConfig::default`].
    ///
    /// # Errors
    ///
    /// The first that holds of [`Refusal::ChannelCount`], [`Refusal::MinimumVolume`], [`Refusal::ClippedLevelStep`], [`Refusal::WaitFrames`], [`Refusal::TargetRange`] and
    /// [`Refusal::SpeechThreshold`].
    pub fn new(num_capture_channels: i32, config: Config) -> Result<Self, Refusal> {
        InputVolumeController::with_predictor(num_capture_channels, config, ClippingPredictorConfig::default())
    }

    /// A controller of 1 to 8 channels with a predictor of any mode. Whether it is on is said by [`Config::enable_clipping_predictor`].
    ///
    /// ```
    /// use agc2::{ClippingPredictorConfig, ClippingPredictorMode, Config, InputVolumeController, Refusal};
    ///
    /// let mode = ClippingPredictorMode::ClippingEventPrediction;
    /// let predictor = ClippingPredictorConfig { mode, clipping_threshold: -2500, ..ClippingPredictorConfig::default() };
    /// let mut controller = InputVolumeController::with_predictor(1, Config::default(), predictor)?;
    /// # Ok::<(), Refusal>(())
    /// ```
    ///
    /// # Errors
    ///
    /// Those of [`InputVolumeController::new`], then, whether the predictor is on or off, [`Refusal::PredictorWindows`], [`Refusal::PredictorCapacity`] and
    /// [`Refusal::PredictorLevels`].
    pub fn with_predictor(num_capture_channels: i32, config: Config, predictor: ClippingPredictorConfig) -> Result<Self, Refusal> {
        InputVolumeController::in_profile(raw::PLAIN, num_capture_channels, config, predictor)
    }

    /// A controller for group teaching, of 1 to 8 channels, with the original's predictor. It takes a narrow set of settings, each bound included:
    ///
    /// - [`Config::enable_clipping_predictor`] is true,
    /// - [`Config::min_input_volume`] is 20 to 70,
    /// - [`Config::clipped_level_min`] is at least `min_input_volume`,
    /// - [`Config::target_range_min_dbfs`] is at most [`Config::target_range_max_dbfs`],
    /// - [`Config::clipped_wait_frames`] and [`Config::update_input_volume_wait_frames`] are at least 100,
    /// - [`Config::clipped_ratio_threshold`] is 0 to 1, and so a number.
    ///
    /// After any calls, a clipping frame that moves a channel's own volume off the one that is applied to it never moves it below `min_input_volume`, before the usual minimum is
    /// applied to all channels. Else it is the controller that [`InputVolumeController::new`] makes.
    ///
    /// ```
    /// use agc2::{Config, InputVolumeController, Refusal};
    ///
    /// let mut controller = InputVolumeController::classroom(2, Config { min_input_volume: 70, ..Config::default() })?;
    /// controller.analyze_input_audio(200, 1, &[0.0, 0.0])?;
    /// let outside = Config { min_input_volume: 71, clipped_level_min: 71, ..Config::default() };
    /// assert_eq!(InputVolumeController::classroom(2, outside).err(), Some(Refusal::ClassroomProfile));
    /// assert!(InputVolumeController::new(2, outside).is_ok());
    /// # Ok::<(), Refusal>(())
    /// ```
    ///
    /// # Errors
    ///
    /// Those of [`InputVolumeController::new`], then [`Refusal::ClassroomProfile`] for any other settings.
    pub fn classroom(num_capture_channels: i32, config: Config) -> Result<Self, Refusal> {
        InputVolumeController::classroom_with_predictor(num_capture_channels, config, ClippingPredictorConfig::default())
    }

    /// The same with a predictor of any mode.
    ///
    /// # Errors
    ///
    /// Those of [`InputVolumeController::with_predictor`], then [`Refusal::ClassroomProfile`].
    pub fn classroom_with_predictor(num_capture_channels: i32, config: Config, predictor: ClippingPredictorConfig) -> Result<Self, Refusal> {
        InputVolumeController::in_profile(raw::CLASSROOM, num_capture_channels, config, predictor)
    }

    /// What the archive's making answers within a profile.
    fn in_profile(profile: u32, num_capture_channels: i32, config: Config, predictor: ClippingPredictorConfig) -> Result<Self, Refusal> {
        // Whoever makes a controller names this function, and so does not link with an archive of another layout, also where nothing is compared.
        // SAFETY: the function takes nothing and asks for nothing.
        let stated = unsafe { raw::agc2_layout_1() };
        debug_assert_eq!(stated, raw::Layout::HERE);
        // SAFETY: the function takes any numbers.
        let made = unsafe { raw::agc2_new_in_profile_by_value(profile, num_capture_channels, config.in_numbers(), predictor.in_numbers()) };
        Refusal::check(made.refusal)?;
        Ok(InputVolumeController { raw: made })
    }

    /// Starts anew, with capture on, but keeps the rings, the startup, the volumes and the wait after clipping. A recommendation is none then until
    /// a frame comes.
    pub fn initialize(&mut self) {
        // SAFETY: the state is one that the library handed out.
        self.raw.control.state = unsafe { raw::agc2_initialize_by_value(self.raw.control.state) };
    }

    /// A frame of 10 ms of all channels, one after another, each of `samples_per_channel` samples, 1 to 480, on the 16-bit scale, captured at the
    /// volume that is applied. A refused frame changes nothing that a later call answers.
    ///
    /// # Errors
    ///
    /// [`Refusal::InputVolume`], then [`Refusal::FrameSize`], with capture off too.
    pub fn analyze_input_audio(&mut self, applied_input_volume: i32, samples_per_channel: usize, samples: &[f32]) -> Result<Accepted, Refusal> {
        // SAFETY: the state is one that the library handed out, and the pointer and the length are the slice's, which is not ours.
        unsafe { raw::agc2_analyze_input_audio_into(&mut self.raw, applied_input_volume, samples_per_channel, samples.as_ptr(), samples.len()) };
        self.framed()
    }

    /// The same where each microphone has a volume of its own: one for each channel in their order, taken whole or not at all. The lowest is the volume that is applied, which a
    /// recommendation with capture off repeats, and with capture on the recommendation is the lowest of the channels. Only if every volume is above 0 it is raised to
    /// [`Config::min_input_volume`]. Equal volumes are [`InputVolumeController::analyze_input_audio`].
    ///
    /// ```
    /// use agc2::{Config, InputVolumeController, Refusal};
    ///
    /// let mut controller = InputVolumeController::new(2, Config::default())?;
    /// controller.analyze_input_audio_each(&[120, 90], 1, &[0.0, 0.0])?;
    /// assert_eq!(controller.recommend_input_volume(0.0, None), Some(90));
    /// assert_eq!(controller.analyze_input_audio_each(&[120], 1, &[0.0, 0.0]), Err(Refusal::VolumeCount));
    /// # Ok::<(), Refusal>(())
    /// ```
    ///
    /// # Errors
    ///
    /// [`Refusal::VolumeCount`], then [`Refusal::InputVolume`] for any of the volumes, then [`Refusal::FrameSize`].
    pub fn analyze_input_audio_each(&mut self, volumes: &[i32], samples_per_channel: usize, samples: &[f32]) -> Result<Accepted, Refusal> {
        // SAFETY: the state is one that the library handed out, and the pointers and the lengths are the slices', which are not ours.
        unsafe {
            raw::agc2_analyze_input_audio_each_into(&mut self.raw, volumes.as_ptr(), volumes.len(), samples_per_channel, samples.as_ptr(), samples.len())
        };
        self.framed()
    }

    /// The same controller for a word spotter, with its narrow entries alone: frames of at most 2 channels and 160 samples per channel.
    pub fn spotter(&mut self) -> Spotter<'_> {
        Spotter::new(self)
    }

    /// What the last frame answered.
    fn framed(&self) -> Result<Accepted, Refusal> {
        Refusal::check(self.raw.refusal)?;
        Ok(Accepted { near: self.raw.near != 0 })
    }

    /// The volume to apply, or none where no frame was accepted since the making, the last initialise or the last recommendation with capture on,
    /// whichever came latest. With capture off it is the volume of the last frame, again and again.
    pub fn recommend_input_volume(&mut self, speech_probability: f32, speech_level_dbfs: Option<f32>) -> Option<i32> {
        let has_speech_level = u32::from(speech_level_dbfs.is_some());
        let control = &mut self.raw.control;
        // SAFETY: the state is one that the library handed out.
        unsafe { raw::agc2_recommend_input_volume_into(control, speech_probability, has_speech_level, speech_level_dbfs.unwrap_or(0.0)) };
        (control.present != 0).then_some(control.volume)
    }

    /// Whether the captured sound is used. While it is not, frames only set the volume, and recommendations repeat it, as often as they are asked.
    pub fn handle_capture_output_used_change(&mut self, capture_output_used: bool) {
        // SAFETY: the state is one that the library handed out.
        self.raw.control.state = unsafe { raw::agc2_handle_capture_output_used_change_by_value(self.raw.control.state, u32::from(capture_output_used)) };
    }

    /// The controller's volume.
    pub fn recommended_input_volume(&self) -> i32 {
        // SAFETY: the state is one that the library handed out.
        unsafe { raw::agc2_recommended_input_volume_by_value(self.raw.control.state) }
    }

    /// The i-th record that a channel's ring stores, the newest being the 0th.
    pub fn stored_record(&self, channel: usize, i: usize) -> Option<Level> {
        // SAFETY: the state is one that the library handed out.
        let r = unsafe { raw::agc2_stored_record_by_value(self.raw, channel, i) };
        (r.present != 0).then_some(Level { average: r.average, max: r.max, clipped: r.clipped })
    }

    /// Metrics over `num_items` records of a channel's ring, those behind the newest `delay`: what a fitter reads to see a clipped stretch. None where fewer than
    /// `delay + num_items` are stored, and so in a channel that is not there. Clipping that is found or predicted, after which the volume falls, empties the rings; in
    /// the wait after it they fill again.
    ///
    /// ```
    /// use agc2::{Config, InputVolumeController, Refusal};
    ///
    /// let mut controller = InputVolumeController::new(1, Config { clipped_ratio_threshold: 0.5, ..Config::default() })?;
    /// controller.analyze_input_audio(200, 4, &[100.0, 32767.0, 0.0, -100.0])?;
    /// controller.analyze_input_audio(200, 4, &[0.0, 32767.0, -32768.0, 0.0])?;
    /// assert_eq!(controller.compute_partial_metrics(0, 0, 2)?.map(|over| over.clipped), Some(3));
    /// assert_eq!(controller.compute_partial_metrics(0, 0, 11), Err(Refusal::RingRange));
    /// # Ok::<(), Refusal>(())
    /// ```
    ///
    /// # Errors
    ///
    /// [`Refusal::RingRange`] for a negative delay, `num_items` below 1, or a sum of both above what a ring holds, which is the predictor's delay + reference: 10 with the original's.
    pub fn compute_partial_metrics(&self, channel: usize, delay: i32, num_items: i32) -> Result<Option<Level>, Refusal> {
        // SAFETY: the state is one that the library handed out.
        let m = unsafe { raw::agc2_compute_partial_metrics_by_value(self.raw, channel, delay, num_items) };
        Refusal::check(m.refusal)?;
        Ok((m.present != 0).then_some(Level { average: m.average, max: m.max, clipped: m.clipped }))
    }
}

impl fmt::Debug for InputVolumeController {
    /// The volume alone: the rest belongs to the library.
    fn fmt(&self, f: &mut fmt::Formatter<'_>) -> fmt::Result {
        f.debug_struct("InputVolumeController").field("recommended_input_volume", &self.recommended_input_volume()).finish_non_exhaustive()
    }
}
