//! What devices give, beside the frame that is meant by it, which is converted by hand here.
use agc2::{frame_of_interleaved_i16, frame_of_unit, Accepted, Config, InputVolumeController, Level, Refusal, MAX_CHANNELS, MAX_SAMPLES_PER_CHANNEL};

/// No frame has it, so a place that was not written shows.
const UNTOUCHED: f32 = 0.25;

#[test]
fn every_16_bit_value_is_exact() {
    let all: Vec<i16> = (i16::MIN..=i16::MAX).collect();
    for channels in [1, 2, 8, 65_536] {
        let moments = all.len() / channels;
        let mut frame = vec![UNTOUCHED; all.len() + 1];
        frame_of_interleaved_i16(channels, &all, &mut frame);
        for (k, &sample) in all.iter().enumerate() {
            assert_eq!(frame[k % channels * moments + k / channels].to_bits(), (sample as f32).to_bits());
        }
        assert_eq!(frame[all.len()], UNTOUCHED);
    }
}

/// Whole moments are written, or nothing.
#[test]
fn interleaved_samples_need_their_room_and_a_channel() {
    let after = |channels, samples: &[i16], room| {
        let mut frame = [UNTOUCHED; 5];
        frame_of_interleaved_i16(channels, samples, &mut frame[..room]);
        frame
    };
    let untouched = [UNTOUCHED; 5];
    let four = [1.0, 3.0, 2.0, 4.0, UNTOUCHED];
    for room in [4, 5] {
        assert_eq!(after(2, &[1, 2, 3, 4], room), four);
        assert_eq!(after(2, &[1, 2, 3, 4, 5], room), four);
    }
    for room in 0..4 {
        assert_eq!(after(2, &[1, 2, 3, 4], room), untouched);
    }
    for channels in [0, 5, usize::MAX] {
        assert_eq!(after(channels, &[1, 2, 3, 4], 5), untouched);
        assert_eq!(after(channels, &[], 0), untouched);
    }
}

/// Floats of every exponent and both signs. Times 32,768 is exact, of subnormal numbers too, and infinite where it is too large.
#[test]
fn unit_samples_are_times_32768() {
    let samples: Vec<f32> = (0..=u16::MAX).map(|high| f32::from_bits(u32::from(high) << 16 | 0x1357)).chain([0.0, -0.0, 1.0, -1.0, f32::INFINITY]).collect();
    let mut frame = vec![UNTOUCHED; samples.len() + 1];
    frame_of_unit(&samples, &mut frame);
    for (sample, put) in samples.iter().zip(&frame) {
        let exact = (f64::from(*sample) * 32_768.0) as f32;
        assert!(put.to_bits() == exact.to_bits() || put.is_nan() && sample.is_nan(), "{sample}: {put}");
    }
    assert_eq!(frame[samples.len()], UNTOUCHED);
    for room in 0..2 {
        let mut short = [UNTOUCHED; 2];
        frame_of_unit(&[0.5, -1.0], &mut short[..room]);
        assert_eq!(short, [UNTOUCHED; 2]);
    }
}

/// The volume and every record.
fn seen(c: &InputVolumeController) -> (i32, Vec<Option<Level>>) {
    (c.recommended_input_volume(), (0..10 * MAX_CHANNELS).map(|k| c.stored_record(k / 10, k % 10)).collect())
}

/// Numbers that are equal in every run.
fn draw(state: &mut u32, limit: u32) -> u32 {
    *state = state.wrapping_mul(1_664_525).wrapping_add(1_013_904_223);
    (*state >> 8) % limit
}

/// The samples of a frame, channel after channel: silence, speech, peaks around the predictor's threshold, or clipped ones.
fn drawn(state: &mut u32, count: usize) -> Vec<i16> {
    let loudest = [1, 3000, 29_300, 32_768][draw(state, 4) as usize];
    (0..count).map(|_| (draw(state, 2 * loudest) as i32 - loudest as i32) as i16).collect()
}

/// Four controllers with the same frames: the one of the frame by hand, and those of interleaved samples, of channels and of unit channels.
struct Four([InputVolumeController; 4]);

impl Four {
    fn new(channels: usize) -> Self {
        let config = Config { clipped_wait_frames: 3, update_input_volume_wait_frames: 5, ..Config::default() };
        Four([(); 4].map(|()| InputVolumeController::new(channels as i32, config).unwrap()))
    }

    /// The answer, which is the same of all.
    fn analyze(&mut self, volume: i32, channels: usize, samples_per_channel: usize, samples: &[i16]) -> Result<Accepted, Refusal> {
        let frame: Vec<f32> = samples.iter().map(|&sample| sample.into()).collect();
        let unit: Vec<f32> = frame.iter().map(|sample| sample / 32_768.0).collect();
        let interleaved: Vec<i16> = (0..samples.len()).map(|k| samples[k % channels * samples_per_channel + k / channels]).collect();
        let apart = |samples: &[f32]| -> Vec<Vec<f32>> { (0..channels).map(|c| samples[c * samples_per_channel..][..samples_per_channel].to_vec()).collect() };
        let [by_hand, of_interleaved, of_channels, of_unit] = &mut self.0;
        let answer = by_hand.analyze_input_audio(volume, samples_per_channel, &frame);
        assert_eq!(of_interleaved.analyze_interleaved_i16(volume, samples_per_channel, &interleaved), answer);
        assert_eq!(of_channels.analyze_channels(volume, &slices(&apart(&frame))), answer);
        assert_eq!(of_unit.analyze_unit_channels(volume, &slices(&apart(&unit))), answer);
        answer
    }

    /// The volume that all recommend, after all that is seen of them was compared.
    fn recommend(&mut self, speech_level_dbfs: f32) -> Option<i32> {
        let [by_hand, others @ ..] = &mut self.0;
        let before = seen(by_hand);
        let recommended = by_hand.recommend_input_volume(0.9, Some(speech_level_dbfs));
        for other in others {
            assert_eq!(seen(other), before);
            assert_eq!(other.recommend_input_volume(0.9, Some(speech_level_dbfs)), recommended);
        }
        recommended
    }
}

fn slices(channels: &[Vec<f32>]) -> Vec<&[f32]> {
    channels.iter().map(Vec::as_slice).collect()
}

#[test]
fn each_entry_is_that_of_the_frame_by_hand() {
    let (mut state, mut moved, mut near, mut emptied) = (7, 0, 0, 0);
    for channels in 1..=MAX_CHANNELS {
        let (mut four, mut volume) = (Four::new(channels), 200);
        for frame in 0..400 {
            let samples_per_channel = [1, 80, 160, 441, 480][draw(&mut state, 5) as usize];
            let samples = drawn(&mut state, channels * samples_per_channel);
            near += i32::from(four.analyze(volume, channels, samples_per_channel, &samples).unwrap().near);
            emptied += i32::from(four.0[0].stored_record(0, 0).is_none());
            let recommended = four.recommend([-70.0, -40.0, -10.0][frame / 50 % 3]).unwrap();
            moved += i32::from(recommended != volume);
            volume = if frame % 40 == 0 { 200 } else { recommended };
        }
    }
    assert!(moved > 100 && emptied > 100 && near > 0, "{moved} {emptied} {near}");
}

/// The tenth frame's peak lies six thousandths of a dB above the predictor's threshold.
#[test]
fn a_mark_comes_through_each_entry() {
    let mut four = Four::new(1);
    for _ in 0..9 {
        assert_eq!(four.analyze(100, 1, 1, &[29_226]), Ok(Accepted { near: false }));
    }
    assert_eq!(four.analyze(100, 1, 1, &[29_226]), Ok(Accepted { near: true }));
}

/// Sizes that are no frame of two channels: too many or too few samples or channels, or nothing at all. A wrong volume comes first. Nothing is changed.
#[test]
fn what_is_no_frame_is_refused_after_the_volume() {
    let mut four = Four::new(2);
    four.analyze(200, 2, 2, &[1, 2, 3, 4]).unwrap();
    let sizes = [(1, 2), (3, 2), (8, 480), (9, 480), (2, 481), (2, 0), (1, 3840), (1, 3841), (10, 300), (1000, 480), (500, 1)];
    for (volume, refusal) in [(-1, Refusal::InputVolume), (256, Refusal::InputVolume), (200, Refusal::FrameSize)] {
        for (channels, samples_per_channel) in sizes {
            let samples = vec![9; channels * samples_per_channel];
            assert_eq!(four.analyze(volume, channels, samples_per_channel, &samples), Err(refusal), "{channels} × {samples_per_channel}");
        }
        assert_eq!(four.0[1].analyze_interleaved_i16(volume, usize::MAX, &[9; 4]), Err(refusal));
        assert_eq!(four.0[1].analyze_interleaved_i16(volume, 0, &[9; 4]), Err(refusal));
        for (samples_per_channel, lent) in [(2, 0), (2, 3), (2, 5), (3, 4), (480, 959), (480, 961), (1, 3841)] {
            assert_eq!(four.0[1].analyze_interleaved_i16(volume, samples_per_channel, &vec![9; lent]), Err(refusal), "{samples_per_channel} of {lent}");
        }
    }
    assert_eq!(four.recommend(-40.0), Some(200));
}

#[test]
fn channels_of_unequal_lengths_are_no_frame() {
    let part = [9.0; MAX_SAMPLES_PER_CHANNEL + 1];
    let mut c = InputVolumeController::new(2, Config::default()).unwrap();
    for lengths in [[1, 2], [2, 1], [0, 1], [1, 0], [480, 479], [479, 480], [480, 481]] {
        let channels = lengths.map(|length| &part[..length]);
        for (volume, refusal) in [(256, Refusal::InputVolume), (255, Refusal::FrameSize)] {
            assert_eq!(c.analyze_channels(volume, &channels), Err(refusal), "{lengths:?}");
            assert_eq!(c.analyze_unit_channels(volume, &channels), Err(refusal), "{lengths:?}");
        }
    }
    for channels in [&[][..], &[&part[..1]], &[&part[..1], &part[..1], &part[..0]]] {
        assert_eq!(c.analyze_channels(255, channels), Err(Refusal::FrameSize));
        assert_eq!(c.analyze_unit_channels(-1, channels), Err(Refusal::InputVolume));
    }
    assert_eq!(c.recommend_input_volume(0.0, None), None);
    assert!(c.analyze_channels(255, &[&part[..480], &part[1..]]).is_ok());
}
