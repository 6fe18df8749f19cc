//! What a clipping predictor is made from.
use crate::raw;

/// How clipping is predicted. The names are the original's.
#[derive(Debug, Clone, Copy, PartialEq, Eq, Hash)]
#[repr(u32)]
pub enum ClippingPredictorMode {
    /// The crest factor has fallen against that of the reference: the default step.
    ClippingEventPrediction = 0,
    /// The peak that the reference's crest factor projects is above the threshold: a step by how far it is above full scale.
    AdaptiveStepClippingPeakPrediction = 1,
    /// The same, with the default step.
    FixedStepClippingPeakPrediction = 2,
}

impl ClippingPredictorMode {
    fn numbered(number: u32) -> Self {
        match number {
            0 => ClippingPredictorMode::ClippingEventPrediction,
            1 => ClippingPredictorMode::AdaptiveStepClippingPeakPrediction,
            _ => ClippingPredictorMode::FixedStepClippingPeakPrediction,
        }
    }
}

/// A predictor's settings. The original's have a switch besides, which here is [`Config::enable_clipping_predictor`](crate::Config) alone, and floats in dB
/// where these are whole thousandths of one.
#[derive(Debug, Clone, Copy, PartialEq, Eq)]
pub struct ClippingPredictorConfig {
    /// How clipping is predicted.
    pub mode: ClippingPredictorMode,
    /// How many of the newest frames are looked at. At least 1.
    pub window_length: i32,
    /// With how many frames they are compared. At least 1.
    pub reference_window_length: i32,
    /// How many of the newest frames those come after. At least 0; with the reference's length above the window's and at most 64.
    pub reference_window_delay: i32,
    /// The level up to which nothing is predicted, in thousandths of a dBFS; the peak modes cut it to whole dB toward zero. -200,000 to 200,000.
    pub clipping_threshold: i32,
    /// By how much the crest factor must have fallen in event mode, in thousandths of a dB. -200,000 to 200,000.
    pub crest_factor_margin: i32,
}

impl Default for ClippingPredictorConfig {
    /// The predictor of the original's controller, and of [`InputVolumeController::new`](crate::InputVolumeController::new) and
    /// [`InputVolumeController::classroom`](crate::InputVolumeController::classroom).
    fn default() -> Self {
        // SAFETY: the function takes nothing and asks for nothing.
        let c = unsafe { raw::agc2_default_predictor_config() };
        ClippingPredictorConfig {
            mode: ClippingPredictorMode::numbered(c.mode),
            window_length: c.window_length,
            reference_window_length: c.reference_window_length,
            reference_window_delay: c.reference_window_delay,
            clipping_threshold: c.clipping_threshold,
            crest_factor_margin: c.crest_factor_margin,
        }
    }
}

impl ClippingPredictorConfig {
    pub(crate) fn in_numbers(self) -> raw::PredictorConfig {
        raw::PredictorConfig {
            mode: self.mode as u32,
            window_length: self.window_length,
            reference_window_length: self.reference_window_length,
            reference_window_delay: self.reference_window_delay,
            clipping_threshold: self.clipping_threshold,
            crest_factor_margin: self.crest_factor_margin,
        }
    }
}
