//! The functions of the archive and the structs that they pass, as include/agc2.h has them.
use core::mem::{offset_of, size_of};

/// All of a controller but its predictor. Its words belong to the library.
#[repr(C)]
#[derive(Clone, Copy)]
pub struct ControlState {
    words: [u64; 39],
}

/// The predictor with its rings. Its words belong to the library.
#[repr(C)]
#[derive(Clone, Copy)]
pub struct PredictorState {
    words: [u64; 798],
}

/// With the answer to the last recommendation.
#[repr(C)]
#[derive(Clone, Copy)]
pub struct Control {
    pub present: u32,
    pub volume: i32,
    pub state: ControlState,
}

/// A controller with the answer to its making or to its last frame.
#[repr(C)]
#[derive(Clone, Copy)]
pub struct Controller {
    pub refusal: u32,
    pub near: u32,
    pub control: Control,
    pub predictor: PredictorState,
}

#[repr(C)]
#[derive(Clone, Copy)]
pub struct Config {
    pub min_input_volume: i32,
    pub clipped_level_min: i32,
    pub clipped_level_step: i32,
    pub clipped_ratio_threshold: f32,
    pub clipped_wait_frames: i32,
    pub enable_clipping_predictor: u32,
    pub target_range_max_dbfs: i32,
    pub target_range_min_dbfs: i32,
    pub update_input_volume_wait_frames: i32,
    pub speech_probability_threshold: f32,
    pub speech_ratio_threshold: f32,
}

#[repr(C)]
#[derive(Clone, Copy)]
pub struct PredictorConfig {
    pub mode: u32,
    pub window_length: i32,
    pub reference_window_length: i32,
    pub reference_window_delay: i32,
    pub clipping_threshold: i32,
    pub crest_factor_margin: i32,
}

#[repr(C)]
pub struct Record {
    pub present: u32,
    pub average: f32,
    pub max: f32,
    pub clipped: u32,
}

#[repr(C)]
pub struct Metrics {
    pub refusal: u32,
    pub present: u32,
    pub average: f32,
    pub max: f32,
    pub clipped: u32,
}

/// For whom a controller is made: everybody, or group teaching.
pub const PLAIN: u32 = 0;
pub const CLASSROOM: u32 = 1;

/// Sizes, and the places of what stands within, in bytes.
#[repr(C)]
#[derive(Debug, PartialEq, Eq)]
pub struct Layout {
    pub control_size: u32,
    pub control_state: u32,
    pub controller_size: u32,
    pub controller_control: u32,
    pub controller_predictor: u32,
    pub config_size: u32,
    pub record_size: u32,
    pub predictor_config_size: u32,
    pub metrics_size: u32,
}

impl Layout {
    /// As this file has them.
    pub const HERE: Layout = Layout {
        control_size: size_of::<Control>() as u32,
        control_state: offset_of!(Control, state) as u32,
        controller_size: size_of::<Controller>() as u32,
        controller_control: offset_of!(Controller, control) as u32,
        controller_predictor: offset_of!(Controller, predictor) as u32,
        config_size: size_of::<Config>() as u32,
        record_size: size_of::<Record>() as u32,
        predictor_config_size: size_of::<PredictorConfig>() as u32,
        metrics_size: size_of::<Metrics>() as u32,
    };
}

extern "C" {
    pub fn agc2_version() -> u32;
    /// As the archive has them. The name has the number of the layout: an archive with another has no function of this name.
    pub fn agc2_layout_1() -> Layout;
    pub fn agc2_default_config() -> Config;
    pub fn agc2_default_predictor_config() -> PredictorConfig;
    pub fn agc2_new_in_profile_by_value(profile: u32, num_capture_channels: i32, config: Config, predictor: PredictorConfig) -> Controller;
    pub fn agc2_initialize_by_value(control: ControlState) -> ControlState;
    pub fn agc2_handle_capture_output_used_change_by_value(control: ControlState, capture_output_used: u32) -> ControlState;
    pub fn agc2_analyze_input_audio_into(controller: &mut Controller, applied_input_volume: i32, samples_per_channel: usize, samples: *const f32, count: usize);
    pub fn agc2_analyze_input_audio_each_into(
        controller: &mut Controller,
        volumes: *const i32,
        volume_count: usize,
        samples_per_channel: usize,
        samples: *const f32,
        count: usize,
    );
    pub fn agc2_spotter_analyze_input_audio_into(
        controller: &mut Controller,
        applied_input_volume: i32,
        samples_per_channel: usize,
        samples: *const f32,
        count: usize,
    );
    pub fn agc2_spotter_analyze_input_audio_each_into(
        controller: &mut Controller,
        volumes: *const i32,
        volume_count: usize,
        samples_per_channel: usize,
        samples: *const f32,
        count: usize,
    );
    pub fn agc2_recommend_input_volume_into(control: &mut Control, speech_probability: f32, has_speech_level: u32, speech_level_dbfs: f32);
    pub fn agc2_recommended_input_volume_by_value(control: ControlState) -> i32;
    pub fn agc2_stored_record_by_value(controller: Controller, channel: usize, i: usize) -> Record;
    pub fn agc2_compute_partial_metrics_by_value(controller: Controller, channel: usize, delay: i32, num_items: i32) -> Metrics;
    pub fn agc2_frame_of_interleaved_i16(channels: usize, samples: *const i16, count: usize, frame: *mut f32, room: usize);
    pub fn agc2_frame_of_unit(samples: *const f32, count: usize, frame: *mut f32, room: usize);
}

#[cfg(test)]
mod tests {
    use super::*;
    use core::mem::align_of;

    #[test]
    fn sizes_are_those_the_archive_states() {
        // SAFETY: the function takes nothing and asks for nothing.
        assert_eq!(unsafe { agc2_layout_1() }, Layout::HERE);
        assert_eq!(align_of::<Controller>(), 8);
    }

    fn bytes(c: &Controller) -> &[u8] {
        // SAFETY: these are the bytes of the struct, which has no gap.
        unsafe { core::slice::from_raw_parts((c as *const Controller).cast(), size_of::<Controller>()) }
    }

    /// Accepted, it is the plain controller of the same arguments; refused, it is what any refused making is, but for the number.
    #[test]
    fn a_classroom_controller_is_the_plain_one_byte_for_byte() {
        // SAFETY: the functions take any numbers.
        let (settings, predictor) = unsafe { (agc2_default_config(), agc2_default_predictor_config()) };
        for (channels, enable_clipping_predictor, refusal) in [(0, 1, 1), (1, 0, 19), (1, 1, 0), (8, 0x8000_0000, 0), (8, 0, 19), (9, 0, 1)] {
            let config = Config { enable_clipping_predictor, ..settings };
            // SAFETY: the functions take any numbers.
            let (made, plain) = unsafe {
                (
                    agc2_new_in_profile_by_value(CLASSROOM, channels, config, predictor),
                    agc2_new_in_profile_by_value(PLAIN, if refusal == 0 { channels } else { 0 }, config, predictor),
                )
            };
            assert_eq!((made.refusal, plain.refusal), (refusal, u32::from(refusal != 0)));
            let expected = Controller { refusal, ..plain };
            assert!(bytes(&made) == bytes(&expected));
        }
    }
}
