//! Drives the bindings as a tablet would.
use agc2::{
    version, Accepted, ClippingPredictorConfig, ClippingPredictorMode, Config, InputVolumeController, Level, NoRefusal, Refusal, MAX_CHANNELS,
    MAX_SAMPLES_PER_CHANNEL, SPOTTER_MAX_CHANNELS, SPOTTER_MAX_SAMPLES_PER_CHANNEL, VERSION,
};

fn made(channels: i32) -> InputVolumeController {
    InputVolumeController::new(channels, Config::default()).unwrap()
}

/// The example of document 01, "The frame-line program": frames of four samples, default settings, one channel.
#[test]
fn the_example() {
    let mut c = made(1);
    assert_eq!(c.recommend_input_volume(0.0, None), None);
    let lines = [(0xc8, [0.0; 4], 0xc8), (0xc8, [32767.0, 32767.0, 0.0, 0.0], 0xb9), (0xb9, [0.0; 4], 0xb9)];
    for (applied, samples, recommended) in lines {
        assert_eq!(c.analyze_input_audio(applied, 4, &samples), Ok(Accepted { near: false }));
        assert_eq!(c.recommend_input_volume(0.0, None), Some(recommended));
    }
    assert_eq!(c.recommended_input_volume(), 0xb9);
}

/// With the tenth frame the windows are full, and its peak is compared with the threshold of -1 dB: 29,226 lies six thousandths of a dB above it, 29,229 seven. 32,766 lies one below a whole dB, but both
/// sides of it lead to the same step, and so to the same state.
#[test]
fn near_is_six_thousandths() {
    for (sample, near) in [(29226.0, true), (29229.0, false), (32766.0, false)] {
        let mut c = made(1);
        for _ in 0..9 {
            assert_eq!(c.analyze_input_audio(100, 1, &[sample]), Ok(Accepted { near: false }));
        }
        assert_eq!(c.analyze_input_audio(100, 1, &[sample]), Ok(Accepted { near }));
    }
}

#[test]
fn crate_and_archive_have_one_version() {
    let numbers: Vec<u32> = env!("CARGO_PKG_VERSION").split('.').map(|n| n.parse().unwrap()).collect();
    assert_eq!(numbers.len(), 3);
    assert_eq!(VERSION, 10_000 * numbers[0] + 100 * numbers[1] + numbers[2]);
    assert_eq!(version(), VERSION);
}

/// Both ways, for each of the 15, and for no other number; in words as an error.
#[test]
fn a_refusal_is_its_number() {
    let numbers = [1, 2, 3, 4, 5, 6, 7, 8, 9, 11, 14, 15, 18, 19, 20];
    for number in (0..1000).chain([u32::MAX]) {
        let refusal = Refusal::try_from(number);
        assert_eq!(refusal.map(Refusal::number), if numbers.contains(&number) { Ok(number) } else { Err(NoRefusal(number)) });
    }
    let error: Box<dyn std::error::Error> = Refusal::try_from(10).unwrap_err().into();
    assert_eq!(error.to_string(), "10 is the number of no refusal");
    let error: Box<dyn std::error::Error> = Refusal::try_from(1).unwrap().into();
    assert_eq!(error.to_string(), "channel count not 1 to 8");
}

#[test]
fn default_settings_are_the_originals() {
    let original = Config {
        min_input_volume: 20,
        clipped_level_min: 70,
        clipped_level_step: 15,
        clipped_ratio_threshold: 0.1,
        clipped_wait_frames: 300,
        enable_clipping_predictor: true,
        target_range_max_dbfs: -30,
        target_range_min_dbfs: -50,
        update_input_volume_wait_frames: 100,
        speech_probability_threshold: 0.7,
        speech_ratio_threshold: 0.6,
    };
    assert_eq!(Config::default(), original);
}

#[test]
fn making_refuses_with_the_first_cause() {
    let with = |change: fn(&mut Config)| {
        let mut config = Config::default();
        change(&mut config);
        InputVolumeController::new(1, config).err()
    };
    for channels in [i32::MIN, 0, MAX_CHANNELS as i32 + 1, i32::MAX] {
        assert_eq!(InputVolumeController::new(channels, Config { min_input_volume: -1, ..Config::default() }).err(), Some(Refusal::ChannelCount));
    }
    assert_eq!(with(|c| c.min_input_volume = -1), Some(Refusal::MinimumVolume));
    assert_eq!(with(|c| c.clipped_level_min = 256), Some(Refusal::MinimumVolume));
    assert_eq!(with(|c| c.clipped_level_step = 0), Some(Refusal::ClippedLevelStep));
    assert_eq!(with(|c| c.clipped_wait_frames = 65536), Some(Refusal::WaitFrames));
    assert_eq!(with(|c| c.update_input_volume_wait_frames = -1), Some(Refusal::WaitFrames));
    assert_eq!(with(|c| c.target_range_max_dbfs = 31), Some(Refusal::TargetRange));
    assert_eq!(with(|c| c.speech_probability_threshold = f32::NAN), Some(Refusal::SpeechThreshold));
    assert_eq!(with(|c| c.speech_ratio_threshold = 1.5), Some(Refusal::SpeechThreshold));
    assert_eq!(with(|c| c.clipped_ratio_threshold = f32::NAN), None);
    assert_eq!(Refusal::SpeechThreshold.number(), 6);
}

#[test]
fn the_default_predictor_is_the_originals() {
    let original = ClippingPredictorConfig {
        mode: ClippingPredictorMode::AdaptiveStepClippingPeakPrediction,
        window_length: 5,
        reference_window_length: 5,
        reference_window_delay: 5,
        clipping_threshold: -1000,
        crest_factor_margin: 3000,
    };
    assert_eq!(ClippingPredictorConfig::default(), original);
}

/// A ring of two records. With threshold and margin in dB it answers what the frame says: the answers are an independent model's. A prediction empties the ring.
#[test]
fn each_mode_predicts_by_its_threshold() {
    let frames = |first: [u32; 4], second: [u32; 4], mode, clipping_threshold| {
        let predictor = ClippingPredictorConfig {
            mode,
            window_length: 1,
            reference_window_length: 1,
            reference_window_delay: 1,
            clipping_threshold,
            crest_factor_margin: 1500,
        };
        let config = Config { clipped_ratio_threshold: f32::INFINITY, clipped_wait_frames: 0, clipped_level_step: 5, ..Config::default() };
        let mut c = InputVolumeController::with_predictor(1, config, predictor).unwrap();
        for frame in [first, second] {
            c.analyze_input_audio(200, 4, &frame.map(f32::from_bits)).unwrap();
        }
        (0..3).filter(|i| c.stored_record(0, *i).is_some()).count()
    };
    let event = ClippingPredictorMode::ClippingEventPrediction;
    assert_eq!(frames([0x453b8000, 0x40e2ef57, 0xc11e1e16, 0x40d5329c], [0xc6af74f7, 0xc61af31d, 0xc61af31d, 0x461af31d], event, -3500), 0);
    assert_eq!(frames([0xc08fd108, 0xc0b2736c, 0x453b8000, 0x3f8a5b7d], [0xc70401d9, 0xc66926db, 0xc66926db, 0x466926db], event, 999), 2);
    // -2,500 is cut to -2,000 dB, which this frame does not pass
    let adaptive = ClippingPredictorMode::AdaptiveStepClippingPeakPrediction;
    assert_eq!(frames([0xc0d765a4, 0xc05fd037, 0x4092a938, 0xc53b8000], [0xc6c93ea0, 0x42303fab, 0xc2303fab, 0xc2303fab], adaptive, -2500), 2);
    // 500 is cut to 0
    let fixed = ClippingPredictorMode::FixedStepClippingPeakPrediction;
    assert_eq!(frames([0x3ff50c5b, 0xc118b027, 0x3fc31acb, 0x453b8000], [0xc7018d14, 0x45b8fd21, 0xc5b8fd21, 0xc5b8fd21], fixed, 500), 0);
}

#[test]
fn a_predictor_is_refused_after_the_settings_and_when_it_is_off() {
    let with = |on: bool, ratio: f32, change: fn(&mut ClippingPredictorConfig)| {
        let mut predictor = ClippingPredictorConfig::default();
        change(&mut predictor);
        let config = Config { enable_clipping_predictor: on, speech_ratio_threshold: ratio, ..Config::default() };
        InputVolumeController::with_predictor(1, config, predictor).err()
    };
    for on in [true, false] {
        assert_eq!(with(on, 0.6, |_| ()), None);
        assert_eq!(with(on, 0.6, |p| p.window_length = 10), Some(Refusal::PredictorWindows));
        assert_eq!(with(on, 0.6, |p| p.reference_window_delay = 60), Some(Refusal::PredictorCapacity));
        assert_eq!(with(on, 0.6, |p| p.crest_factor_margin = 200_001), Some(Refusal::PredictorLevels));
        assert_eq!(with(on, f32::NAN, |p| p.window_length = 0), Some(Refusal::SpeechThreshold));
    }
    assert_eq!(Refusal::PredictorCapacity.number(), 14);
}

#[test]
fn a_refused_frame_changes_nothing() {
    let mut c = made(2);
    let frame = [1000.0f32; 2 * MAX_SAMPLES_PER_CHANNEL];
    c.analyze_input_audio(200, 480, &frame).unwrap();
    for volume in [i32::MIN, -1, 256, i32::MAX] {
        assert_eq!(c.analyze_input_audio(volume, 480, &frame), Err(Refusal::InputVolume));
    }
    for (samples, lent) in [(0, 0), (480, 959), (481, 960), (1, 960), (usize::MAX, 960), (usize::MAX / 2 + 1, 0)] {
        assert_eq!(c.analyze_input_audio(100, samples, &frame[..lent]), Err(Refusal::FrameSize));
    }
    assert!(c.stored_record(0, 1).is_none());
    assert_eq!(c.recommend_input_volume(0.0, None), Some(200));
}

/// What a controller of two channels recommends after a silent frame with these volumes. A first frame ends the startup, in which a muted channel is raised.
fn after_two_volumes(capture: bool, volumes: [i32; 2]) -> Option<i32> {
    let mut c = made(2);
    c.analyze_input_audio(100, 1, &[0.0, 0.0]).unwrap();
    assert_eq!(c.recommend_input_volume(0.0, None), Some(100));
    c.handle_capture_output_used_change(capture);
    c.analyze_input_audio_each(&volumes, 1, &[0.0, 0.0]).unwrap();
    c.recommend_input_volume(0.0, None)
}

/// The lowest volume is pending, and is raised to 20 only if it is above 0; with capture off it is repeated as it was given.
#[test]
fn the_lowest_volume_is_applied() {
    for (volumes, recommended) in [([120, 90], 90), ([90, 120], 90), ([15, 10], 20), ([15, 200], 20), ([0, 200], 0), ([200, 0], 0)] {
        assert_eq!(after_two_volumes(true, volumes), Some(recommended), "{volumes:?}");
    }
    assert_eq!(after_two_volumes(false, [15, 10]), Some(10));
}

/// 20 comes before 8, and 8 before 9, whatever else is wrong.
#[test]
fn a_refused_set_changes_nothing() {
    let mut c = made(2);
    c.analyze_input_audio_each(&[100, 200], 1, &[0.0, 0.0]).unwrap();
    let refusals: [(&[i32], usize, &[f32], Refusal); 9] = [
        (&[100], 1, &[0.0; 2], Refusal::VolumeCount),
        (&[100, 200, 50], 1, &[0.0; 2], Refusal::VolumeCount),
        (&[], 1, &[0.0; 2], Refusal::VolumeCount),
        (&[100, 300, 50], 1, &[0.0; 2], Refusal::VolumeCount),
        (&[300; 40], 0, &[0.0; 3], Refusal::VolumeCount),
        (&[100, 300], 1, &[0.0; 2], Refusal::InputVolume),
        (&[-1, 200], 1, &[0.0; 3], Refusal::InputVolume),
        (&[100, 200], 1, &[0.0; 3], Refusal::FrameSize),
        (&[100, 200], 0, &[], Refusal::FrameSize),
    ];
    for (volumes, samples, frame, refusal) in refusals {
        assert_eq!(c.analyze_input_audio_each(volumes, samples, frame), Err(refusal), "{volumes:?}");
        assert!(c.stored_record(0, 1).is_none());
    }
    assert_eq!(c.recommend_input_volume(0.0, None), Some(100));
    assert_eq!((Refusal::VolumeCount.number(), Refusal::VolumeCount.to_string().as_str()), (20, "volumes not as many as the channels"));
}

#[test]
fn a_set_of_equal_volumes_is_the_one_volume() {
    for channels in 1..=MAX_CHANNELS {
        let (mut one, mut each) = (made(channels as i32), made(channels as i32));
        for k in 0..300 {
            let (volume, sample) = (k * 37 % 256, [0.0, 29300.0, 32767.0][k as usize % 3]);
            let frame = vec![sample; 2 * channels];
            assert_eq!(one.analyze_input_audio(volume, 2, &frame), each.analyze_input_audio_each(&vec![volume; channels], 2, &frame));
            assert_eq!(one.recommend_input_volume(0.9, Some(-40.0)), each.recommend_input_volume(0.9, Some(-40.0)));
            assert_eq!(one.stored_record(channels - 1, 0), each.stored_record(channels - 1, 0));
        }
    }
}

/// Every record and the volume, and with them all that a frame could have changed here.
fn seen(c: &InputVolumeController) -> (i32, Vec<Option<Level>>) {
    (c.recommended_input_volume(), (0..30).map(|i| c.stored_record(i / 10, i % 10)).collect())
}

/// Channels, their volumes, samples per channel, samples lent, and the refusal if there is one.
type Lent = (i32, &'static [i32], usize, usize, Option<Refusal>);

/// At most 2 channels and 160 samples each. 18 comes after 9, 9 after 8 and 8 after 20, whatever else is wrong, with capture on and off; the plain entry takes what only 18 refuses.
#[test]
fn a_frame_over_the_spotters_limits_changes_nothing() {
    let frames: [Lent; 12] = [
        (1, &[200], 160, 160, None),
        (2, &[200, 100], 160, 320, None),
        (1, &[200], 161, 161, Some(Refusal::FrameLimits)),
        (2, &[200, 100], 161, 322, Some(Refusal::FrameLimits)),
        (1, &[200], 480, 480, Some(Refusal::FrameLimits)),
        (3, &[200, 100, 50], 1, 3, Some(Refusal::FrameLimits)),
        (3, &[200, 100, 50], 161, 482, Some(Refusal::FrameSize)),
        (1, &[200], 481, 481, Some(Refusal::FrameSize)),
        (3, &[256, 100, 50], 161, 483, Some(Refusal::InputVolume)),
        (3, &[-1, 100, 50], 161, 482, Some(Refusal::InputVolume)),
        (3, &[256, 100], 161, 482, Some(Refusal::VolumeCount)),
        (3, &[200, 100, 50, 50], 161, 483, Some(Refusal::VolumeCount)),
    ];
    let sound = [1000.0f32; 3 * MAX_SAMPLES_PER_CHANNEL];
    for ((channels, volumes, samples, lent, refusal), capture) in frames.into_iter().flat_map(|f| [(f, true), (f, false)]) {
        let mut c = made(channels);
        c.handle_capture_output_used_change(capture);
        c.analyze_input_audio(90, 480, &sound[..480 * channels as usize]).unwrap();
        let (before, answer) = (seen(&c), refusal.map_or(Ok(Accepted { near: false }), Err));
        assert_eq!(c.spotter().analyze_input_audio_each(volumes, samples, &sound[..lent]), answer, "{volumes:?}");
        assert_eq!(seen(&c) == before, refusal.is_some());
        assert_eq!(c.recommend_input_volume(0.0, None) == Some(90), refusal.is_some());
        if refusal != Some(Refusal::VolumeCount) {
            assert_eq!(made(channels).spotter().analyze_input_audio(volumes[0], samples, &sound[..lent]), answer);
        }
        if refusal == Some(Refusal::FrameLimits) {
            assert_eq!(made(channels).analyze_input_audio(volumes[0], samples, &sound[..lent]), Ok(Accepted { near: false }));
            assert_eq!(made(channels).analyze_input_audio_each(volumes, samples, &sound[..lent]), Ok(Accepted { near: false }));
        }
    }
    assert_eq!(Refusal::FrameLimits.number(), 18);
    assert_eq!(Refusal::FrameLimits.to_string(), "more channels or samples per channel than the spotter's 2 and 160");
}

#[test]
fn a_spotters_frame_is_the_plain_one() {
    for channels in 1..=SPOTTER_MAX_CHANNELS {
        let (mut plain, mut narrow) = (made(channels as i32), made(channels as i32));
        let mut spotter = narrow.spotter();
        for k in 0..300 {
            let (volume, sample) = (k * 37 % 257, [0.0, 29300.0, 32767.0][k as usize % 3]);
            let samples = k as usize * 7 % (SPOTTER_MAX_SAMPLES_PER_CHANNEL + 1);
            let frame = vec![sample; samples * channels];
            if k % 2 == 0 {
                assert_eq!(plain.analyze_input_audio(volume, samples, &frame), spotter.analyze_input_audio(volume, samples, &frame));
            } else {
                let volumes = vec![volume; channels];
                assert_eq!(plain.analyze_input_audio_each(&volumes, samples, &frame), spotter.analyze_input_audio_each(&volumes, samples, &frame));
            }
            assert_eq!(plain.recommended_input_volume(), spotter.recommended_input_volume());
            assert_eq!(plain.recommend_input_volume(0.9, Some(-40.0)), spotter.recommend_input_volume(0.9, Some(-40.0)));
        }
        assert_eq!(seen(&plain), seen(&narrow));
    }
}

/// The six conditions. A threshold that is not a number is in no range.
fn in_classroom(c: &Config) -> bool {
    c.enable_clipping_predictor
        && (20..=70).contains(&c.min_input_volume)
        && c.clipped_level_min >= c.min_input_volume
        && c.target_range_min_dbfs <= c.target_range_max_dbfs
        && c.clipped_wait_frames >= 100
        && c.update_input_volume_wait_frames >= 100
        && (0.0..=1.0).contains(&c.clipped_ratio_threshold)
}

/// The classroom's making beside the plain one: a refusal of that comes first, then 19 by the conditions, and else the two controllers are alike after a clipped frame. Its refusal.
fn classroom_with(channels: i32, config: Config, predictor: ClippingPredictorConfig) -> Option<Refusal> {
    let plain = InputVolumeController::with_predictor(channels, config, predictor);
    let classroom = InputVolumeController::classroom_with_predictor(channels, config, predictor);
    let refusal = classroom.as_ref().err().copied();
    match (plain, classroom) {
        (Err(cause), _) => assert_eq!(refusal, Some(cause)),
        (Ok(_), Err(cause)) => assert_eq!((cause, in_classroom(&config)), (Refusal::ClassroomProfile, false)),
        (Ok(mut plain), Ok(mut classroom)) => {
            assert!(in_classroom(&config), "{config:?}");
            let frame = vec![32767.0; channels as usize];
            assert_eq!(plain.analyze_input_audio(200, 1, &frame), classroom.analyze_input_audio(200, 1, &frame));
            assert_eq!(seen(&plain), seen(&classroom));
            assert_eq!(plain.recommend_input_volume(0.9, Some(-40.0)), classroom.recommend_input_volume(0.9, Some(-40.0)));
        }
    }
    refusal
}

/// The same with the original's predictor.
fn classroom(channels: i32, config: Config) -> Option<Refusal> {
    let refusal = InputVolumeController::classroom(channels, config).err();
    assert_eq!(classroom_with(channels, config, ClippingPredictorConfig::default()), refusal);
    refusal
}

type Change = fn(&mut Config);

/// The default settings are in the profile. These lie on both sides of each end of the six conditions, with whether they are in it too; the plain controller takes them all.
const CHANGES: [(Change, bool); 37] = [
    (|_| (), true),
    (|c| c.enable_clipping_predictor = false, false),
    (|c| c.min_input_volume = 0, false),
    (|c| c.min_input_volume = 19, false),
    (|c| c.min_input_volume = 20, true),
    (|c| (c.min_input_volume, c.clipped_level_min) = (70, 255), true),
    (|c| (c.min_input_volume, c.clipped_level_min) = (71, 255), false),
    (|c| (c.min_input_volume, c.clipped_level_min) = (255, 255), false),
    (|c| c.clipped_level_min = 0, false),
    (|c| c.clipped_level_min = 19, false),
    (|c| c.clipped_level_min = 20, true),
    (|c| (c.min_input_volume, c.clipped_level_min) = (45, 44), false),
    (|c| (c.min_input_volume, c.clipped_level_min) = (45, 45), true),
    (|c| (c.min_input_volume, c.clipped_level_min) = (70, 69), false),
    (|c| (c.min_input_volume, c.clipped_level_min) = (70, 70), true),
    (|c| c.target_range_min_dbfs = -30, true),
    (|c| c.target_range_min_dbfs = -29, false),
    (|c| (c.target_range_min_dbfs, c.target_range_max_dbfs) = (-90, 30), true),
    (|c| (c.target_range_min_dbfs, c.target_range_max_dbfs) = (30, -90), false),
    (|c| (c.target_range_min_dbfs, c.target_range_max_dbfs) = (0, -1), false),
    (|c| (c.target_range_min_dbfs, c.target_range_max_dbfs) = (1, 0), false),
    (|c| c.clipped_wait_frames = 0, false),
    (|c| c.clipped_wait_frames = 99, false),
    (|c| c.clipped_wait_frames = 100, true),
    (|c| c.update_input_volume_wait_frames = 0, false),
    (|c| c.update_input_volume_wait_frames = 99, false),
    (|c| (c.clipped_wait_frames, c.update_input_volume_wait_frames) = (65_535, 65_535), true),
    (|c| c.clipped_ratio_threshold = 0.0, true),
    (|c| c.clipped_ratio_threshold = -0.0, true),
    (|c| c.clipped_ratio_threshold = f32::from_bits(1), true),
    (|c| c.clipped_ratio_threshold = -f32::from_bits(1), false),
    (|c| c.clipped_ratio_threshold = 1.0, true),
    (|c| c.clipped_ratio_threshold = 1.0 + f32::EPSILON, false),
    (|c| c.clipped_ratio_threshold = f32::NAN, false),
    (|c| c.clipped_ratio_threshold = -f32::NAN, false),
    (|c| c.clipped_ratio_threshold = f32::INFINITY, false),
    (|c| c.clipped_ratio_threshold = f32::NEG_INFINITY, false),
];

/// The settings of each change.
fn changed() -> impl Iterator<Item = (Config, bool)> {
    CHANGES.into_iter().map(|(change, taken)| {
        let mut config = Config::default();
        change(&mut config);
        (config, taken)
    })
}

#[test]
fn a_classroom_takes_its_profile() {
    let events = ClippingPredictorConfig { mode: ClippingPredictorMode::ClippingEventPrediction, ..ClippingPredictorConfig::default() };
    for (config, taken) in changed() {
        let refusal = (!taken).then_some(Refusal::ClassroomProfile);
        for channels in 1..=MAX_CHANNELS as i32 {
            assert!(InputVolumeController::new(channels, config).is_ok());
            assert_eq!(classroom(channels, config), refusal, "{config:?}");
            assert_eq!(classroom_with(channels, config, events), refusal, "{config:?}");
        }
    }
    assert_eq!((Refusal::ClassroomProfile.number(), Refusal::ClassroomProfile.to_string().as_str()), (19, "settings outside the classroom profile"));
}

/// What the plain controller refuses with 2 to 6.
const EARLIER: [(Change, Refusal); 13] = [
    (|c| c.min_input_volume = -1, Refusal::MinimumVolume),
    (|c| c.min_input_volume = 256, Refusal::MinimumVolume),
    (|c| c.clipped_level_min = -1, Refusal::MinimumVolume),
    (|c| c.clipped_level_min = 256, Refusal::MinimumVolume),
    (|c| c.clipped_level_step = 0, Refusal::ClippedLevelStep),
    (|c| c.clipped_level_step = 256, Refusal::ClippedLevelStep),
    (|c| c.clipped_wait_frames = 65_536, Refusal::WaitFrames),
    (|c| c.clipped_wait_frames = -1, Refusal::WaitFrames),
    (|c| c.update_input_volume_wait_frames = -1, Refusal::WaitFrames),
    (|c| c.target_range_max_dbfs = -91, Refusal::TargetRange),
    (|c| c.target_range_min_dbfs = 31, Refusal::TargetRange),
    (|c| c.speech_probability_threshold = f32::NAN, Refusal::SpeechThreshold),
    (|c| c.speech_ratio_threshold = 1.5, Refusal::SpeechThreshold),
];

/// 1 to 6 come before 19, and so do 7, 14 and 15, whichever of the conditions is broken.
#[test]
fn a_classroom_refuses_after_the_plain_causes() {
    let base = ClippingPredictorConfig::default();
    let predictors = [
        (ClippingPredictorConfig { window_length: 10, ..base }, Refusal::PredictorWindows),
        (ClippingPredictorConfig { reference_window_delay: 60, ..base }, Refusal::PredictorCapacity),
        (ClippingPredictorConfig { clipping_threshold: -200_001, ..base }, Refusal::PredictorLevels),
        (ClippingPredictorConfig { crest_factor_margin: 200_001, ..base }, Refusal::PredictorLevels),
    ];
    for (config, _) in changed() {
        for (predictor, cause) in predictors {
            assert_eq!(classroom_with(1, config, predictor), Some(cause), "{config:?}");
            assert_eq!(classroom_with(0, config, predictor), Some(Refusal::ChannelCount));
        }
        assert_eq!(classroom(MAX_CHANNELS as i32 + 1, config), Some(Refusal::ChannelCount));
        for (change, cause) in EARLIER {
            // the predictor is off, so that 19 holds besides
            let mut wrong = Config { enable_clipping_predictor: false, ..config };
            change(&mut wrong);
            assert_eq!(classroom(1, wrong), Some(cause), "{wrong:?}");
            assert_eq!(classroom_with(1, wrong, predictors[0].0), Some(cause), "{wrong:?}");
        }
    }
}

/// Numbers that are equal in every run.
struct Draws(u32);

impl Draws {
    fn below(&mut self, limit: u32) -> u32 {
        self.0 = self.0.wrapping_mul(1_664_525).wrapping_add(1_013_904_223);
        (self.0 >> 8) % limit
    }

    /// From low to high, one in ten at an end; one in sixty lies beyond.
    fn within(&mut self, low: i32, high: i32) -> i32 {
        match (self.below(60), self.below(2)) {
            (0, 0) => low - 1,
            (0, _) => high + 1,
            (1..7, 0) => low,
            (1..7, _) => high,
            _ => low + self.below((high - low) as u32 + 1) as i32,
        }
    }

    /// The same from 0 to 1.
    fn share(&mut self) -> f32 {
        match self.below(60) {
            0 => [-f32::from_bits(1), 1.0 + f32::EPSILON, f32::NAN, f32::INFINITY, f32::NEG_INFINITY][self.below(5) as usize],
            1..7 => [0.0, -0.0, f32::from_bits(1), 1.0][self.below(4) as usize],
            _ => self.below(1001) as f32 / 1000.0,
        }
    }

    /// One range, or at one in twelve the other.
    fn mostly(&mut self, narrow: [i32; 2], wide: [i32; 2]) -> i32 {
        let [low, high] = if self.below(12) == 0 { wide } else { narrow };
        self.within(low, high)
    }

    /// Settings, most of them in the profile or just beside it.
    fn config(&mut self) -> Config {
        let min_input_volume = self.mostly([20, 70], [0, 255]);
        let target_range_min_dbfs = self.within(-90, 30);
        Config {
            min_input_volume,
            clipped_level_min: min_input_volume + self.mostly([0, 185], [-70, 185]),
            clipped_level_step: self.within(1, 255),
            clipped_ratio_threshold: self.share(),
            clipped_wait_frames: self.mostly([100, 65_535], [0, 65_535]),
            enable_clipping_predictor: self.below(12) != 0,
            target_range_max_dbfs: target_range_min_dbfs + self.mostly([0, 20], [-60, 20]),
            target_range_min_dbfs,
            update_input_volume_wait_frames: self.mostly([100, 65_535], [0, 65_535]),
            speech_probability_threshold: self.share(),
            speech_ratio_threshold: self.share(),
        }
    }

    fn predictor(&mut self) -> ClippingPredictorConfig {
        let modes = [
            ClippingPredictorMode::ClippingEventPrediction,
            ClippingPredictorMode::AdaptiveStepClippingPeakPrediction,
            ClippingPredictorMode::FixedStepClippingPeakPrediction,
        ];
        ClippingPredictorConfig {
            mode: modes[self.below(3) as usize],
            window_length: self.within(1, 6),
            reference_window_length: self.within(1, 30),
            reference_window_delay: self.within(0, 40),
            clipping_threshold: self.within(-200_000, 200_000),
            crest_factor_margin: self.within(-200_000, 200_000),
        }
    }
}

/// The plain refusal if there is one, else 19 or none by the six conditions; each comes up.
#[test]
fn a_classroom_answers_by_the_conditions() {
    let (mut draws, mut answers) = (Draws(19), [0; 21]);
    for k in 0..20_000 {
        let (channels, config, predictor) = (draws.within(1, MAX_CHANNELS as i32), draws.config(), draws.predictor());
        let refusal = if k % 2 == 0 { classroom(channels, config) } else { classroom_with(channels, config, predictor) };
        answers[refusal.map_or(0, Refusal::number) as usize] += 1;
    }
    for (answer, least) in [(0, 2000), (19, 2000), (1, 100), (2, 100), (3, 100), (4, 100), (5, 100), (6, 100), (7, 100), (14, 100), (15, 100)] {
        assert!(answers[answer] > least, "{answer}: {answers:?}");
    }
}

#[test]
fn every_channel_count_and_every_sample_is_taken() {
    for channels in 1..=MAX_CHANNELS {
        let mut c = made(channels as i32);
        let odd = [f32::NAN, f32::INFINITY, f32::NEG_INFINITY, -0.0, f32::MIN_POSITIVE / 2.0, f32::MAX];
        let frame: Vec<f32> = (0..channels).flat_map(|_| odd).collect();
        for _ in 0..20 {
            c.analyze_input_audio(128, odd.len(), &frame).unwrap();
            let volume = c.recommend_input_volume(f32::NAN, Some(f32::NAN)).unwrap();
            assert!((20..=255).contains(&volume));
        }
        assert!(c.stored_record(channels - 1, 0).is_some());
        assert!(c.stored_record(channels, 0).is_none());
    }
}

#[test]
fn capture_off_repeats_the_volume() {
    let mut c = made(1);
    c.handle_capture_output_used_change(false);
    c.analyze_input_audio(7, 1, &[32767.0]).unwrap();
    assert_eq!(c.recommend_input_volume(1.0, Some(0.0)), Some(7));
    assert_eq!(c.recommend_input_volume(1.0, Some(0.0)), Some(7));
    assert!(c.stored_record(0, 0).is_none());
    c.handle_capture_output_used_change(true);
    assert!(c.recommend_input_volume(1.0, Some(0.0)).is_some());
    assert_eq!(c.recommend_input_volume(1.0, Some(0.0)), None);
}

#[test]
fn initialise_keeps_the_rings_and_forgets_the_pending_volume() {
    let mut c = made(2);
    c.analyze_input_audio(100, 3, &[3.0, -4.0, 0.0, 1.0, 2.0, -5.0]).unwrap();
    c.initialize();
    assert_eq!(c.recommend_input_volume(0.0, None), None);
    let first = c.stored_record(0, 0).unwrap();
    let second = c.stored_record(1, 0).unwrap();
    assert_eq!((first.average, first.max), (25.0 / 3.0, 4.0));
    assert_eq!((second.average, second.max), (10.0, 5.0));
}

/// 32,767 and above and -32,768 and below are clipped, infinities too; a not-a-number and -32,767 are not.
const CLIPPED: [f32; 5] = [32767.0, -32768.0, f32::INFINITY, f32::NEG_INFINITY, 1e30];
const OTHER: [f32; 5] = [32766.0, -32767.0, f32::NAN, 0.0, -0.5];

/// No ratio is above 1, so no frame counts as clipped, and with fewer than ten records nothing is predicted: nothing empties the rings.
fn with_rings_left(channels: i32) -> InputVolumeController {
    InputVolumeController::new(channels, Config { clipped_ratio_threshold: 1.0, ..Config::default() }).unwrap()
}

#[test]
fn a_record_counts_the_clipped_samples() {
    for (clipped, other) in CLIPPED.into_iter().zip(OTHER) {
        let mut c = with_rings_left(1);
        c.analyze_input_audio(100, 1, &[clipped]).unwrap();
        c.analyze_input_audio(100, 1, &[other]).unwrap();
        assert_eq!((c.stored_record(0, 1).unwrap().clipped, c.stored_record(0, 0).unwrap().clipped), (1, 0), "{clipped} and {other}");
        assert_eq!(c.compute_partial_metrics(0, 0, 2).unwrap().unwrap().clipped, 1);
    }
}

/// Eight samples of a channel, of which so many are clipped.
fn part(clipped: usize) -> impl Iterator<Item = f32> {
    (0..8).map(move |i| if i < clipped { CLIPPED[i % 5] } else { OTHER[i % 5] })
}

/// Five frames of two channels, whose counts are kept apart.
#[test]
fn a_clipped_stretch_is_seen() {
    let stretch = [[0, 1, 8, 3, 0], [8, 0, 2, 3, 5]];
    let mut c = with_rings_left(2);
    for (first, second) in stretch[0].into_iter().zip(stretch[1]) {
        let frame: Vec<f32> = part(first).chain(part(second)).collect();
        c.analyze_input_audio(100, 8, &frame).unwrap();
    }
    for (channel, counts) in stretch.into_iter().enumerate() {
        let newest_first: Vec<u32> = counts.into_iter().rev().map(|n| n as u32).collect();
        let records: Vec<u32> = (0..5).map(|i| c.stored_record(channel, i).unwrap().clipped).collect();
        assert_eq!(records, newest_first);
        for (delay, items) in (0..5).flat_map(|delay| (1..=5 - delay).map(move |items| (delay, items))) {
            let over = c.compute_partial_metrics(channel, delay as i32, items as i32).unwrap().unwrap();
            assert_eq!(over.clipped, newest_first[delay..delay + items].iter().sum::<u32>());
        }
    }
}

/// A ring of the original's predictor holds ten records. A channel that is not there stores none.
#[test]
fn metrics_are_none_with_too_few_records_and_refused_past_the_capacity() {
    let mut c = with_rings_left(2);
    for _ in 0..3 {
        c.analyze_input_audio(100, 1, &[0.0, 32767.0]).unwrap();
    }
    for channel in [0, 1, 2, MAX_CHANNELS, usize::MAX] {
        for (delay, items) in [(0, 4), (3, 1), (0, 10), (9, 1), (5, 5)] {
            assert_eq!(c.compute_partial_metrics(channel, delay, items), Ok(None));
        }
        for (delay, items) in [(-1, 1), (i32::MIN, 1), (0, 0), (0, -1), (0, i32::MIN), (0, 11), (10, 1), (5, 6), (i32::MAX, 1), (i32::MAX, i32::MAX)] {
            assert_eq!(c.compute_partial_metrics(channel, delay, items), Err(Refusal::RingRange));
        }
    }
    assert_eq!((Refusal::RingRange.number(), c.compute_partial_metrics(1, 1, 2).unwrap().unwrap().clipped), (11, 2));
    assert_eq!(Refusal::RingRange.to_string(), "delay negative, item count below 1, or their sum above the ring's capacity");
}

#[test]
fn metrics_are_the_mean_and_the_peak_of_the_records_behind_the_newest() {
    let mut c = with_rings_left(1);
    for frame in [[1.0, -1.0], [3.0, -5.0], [2.0, 2.0]] {
        c.analyze_input_audio(100, 2, &frame).unwrap();
    }
    assert_eq!(c.compute_partial_metrics(0, 1, 2), Ok(Some(Level { average: 9.0, max: 5.0, clipped: 0 })));
}

/// In the wait after it they fill again.
#[test]
fn clipping_that_is_found_empties_the_rings() {
    let mut c = made(1);
    let clipped = [32767.0, 32767.0, 0.0, 0.0];
    c.analyze_input_audio(200, 4, &clipped).unwrap();
    assert_eq!(c.compute_partial_metrics(0, 0, 1), Ok(None));
    c.analyze_input_audio(200, 4, &clipped).unwrap();
    c.analyze_input_audio(200, 4, &clipped).unwrap();
    assert_eq!(c.compute_partial_metrics(0, 0, 2).unwrap().unwrap().clipped, 4);
}

#[test]
fn a_copy_goes_its_own_way() {
    let mut a = made(1);
    a.analyze_input_audio(200, 1, &[0.0]).unwrap();
    let mut b = a.clone();
    b.analyze_input_audio(90, 1, &[0.0]).unwrap();
    assert_eq!(a.recommend_input_volume(0.0, None), Some(200));
    assert_eq!(b.recommend_input_volume(0.0, None), Some(90));
}
