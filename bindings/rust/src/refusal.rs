//! Why a call says no.
use core::error::Error;
use core::fmt;

/// A refusal, with its number (`as u32`, or [`Refusal::number`]), from which it can be had again (`try_from`). A refused call leaves the controller as it was.
#[derive(Debug, Clone, Copy, PartialEq, Eq, Hash)]
#[repr(u32)]
pub enum Refusal {
    /// channel count not 1 to 8
    ChannelCount = 1,
    /// min_input_volume or clipped_level_min not 0 to 255
    MinimumVolume = 2,
    /// clipped_level_step not 1 to 255
    ClippedLevelStep = 3,
    /// clipped_wait_frames or update_input_volume_wait_frames not 0 to 65,535
    WaitFrames = 4,
    /// a target not -90 to 30 dBFS
    TargetRange = 5,
    /// speech probability or speech ratio threshold not 0 to 1, or not a number
    SpeechThreshold = 6,
    /// predictor window or reference below 1, delay below 0, or delay + reference not above window
    PredictorWindows = 7,
    /// a volume not 0 to 255
    InputVolume = 8,
    /// samples per channel not 1 to 480, or lent samples not channels × that
    FrameSize = 9,
    /// delay negative, item count below 1, or their sum above the ring's capacity
    RingRange = 11,
    /// predictor delay + reference above 64
    PredictorCapacity = 14,
    /// predictor threshold or margin not -200,000 to 200,000 thousandths of a dB
    PredictorLevels = 15,
    /// more channels or samples per channel than the spotter's 2 and 160
    FrameLimits = 18,
    /// settings outside the classroom profile
    ClassroomProfile = 19,
    /// volumes not as many as the channels
    VolumeCount = 20,
}

impl Refusal {
    /// The number of the cause.
    pub fn number(self) -> u32 {
        self as u32
    }

    /// `Ok` at 0. The contracts of the library allow no other numbers than these.
    pub(crate) fn check(number: u32) -> Result<(), Refusal> {
        if number == 0 {
            return Ok(());
        }
        Err(Refusal::try_from(number).unwrap_or_else(|NoRefusal(other)| unreachable!("libagc2.a answered {other}, which is no refusal of it")))
    }
}

impl TryFrom<u32> for Refusal {
    type Error = NoRefusal;

    /// The refusal of a number that was stored or sent.
    ///
    /// # Errors
    ///
    /// [`NoRefusal`], if there is none of this number, as at 0.
    fn try_from(number: u32) -> Result<Self, NoRefusal> {
        Ok(match number {
            1 => Refusal::ChannelCount,
            2 => Refusal::MinimumVolume,
            3 => Refusal::ClippedLevelStep,
            4 => Refusal::WaitFrames,
            5 => Refusal::TargetRange,
            6 => Refusal::SpeechThreshold,
            7 => Refusal::PredictorWindows,
            8 => Refusal::InputVolume,
            9 => Refusal::FrameSize,
            11 => Refusal::RingRange,
            14 => Refusal::PredictorCapacity,
            15 => Refusal::PredictorLevels,
            18 => Refusal::FrameLimits,
            19 => Refusal::ClassroomProfile,
            20 => Refusal::VolumeCount,
            other => return Err(NoRefusal(other)),
        })
    }
}

impl fmt::Display for Refusal {
    fn fmt(&self, f: &mut fmt::Formatter<'_>) -> fmt::Result {
        f.write_str(match self {
            Refusal::ChannelCount => "channel count not 1 to 8",
            Refusal::MinimumVolume => "min_input_volume or clipped_level_min not 0 to 255",
            Refusal::ClippedLevelStep => "clipped_level_step not 1 to 255",
            Refusal::WaitFrames => "clipped_wait_frames or update_input_volume_wait_frames not 0 to 65,535",
            Refusal::TargetRange => "a target not -90 to 30 dBFS",
            Refusal::SpeechThreshold => "speech probability or speech ratio threshold not 0 to 1, or not a number",
            Refusal::PredictorWindows => "predictor window or reference below 1, delay below 0, or delay + reference not above window",
            Refusal::InputVolume => "a volume not 0 to 255",
            Refusal::FrameSize => "samples per channel not 1 to 480, or lent samples not channels × that",
            Refusal::RingRange => "delay negative, item count below 1, or their sum above the ring's capacity",
            Refusal::PredictorCapacity => "predictor delay + reference above 64",
            Refusal::PredictorLevels => "predictor threshold or margin not -200,000 to 200,000 thousandths of a dB",
            Refusal::FrameLimits => "more channels or samples per channel than the spotter's 2 and 160",
            Refusal::ClassroomProfile => "settings outside the classroom profile",
            Refusal::VolumeCount => "volumes not as many as the channels",
        })
    }
}

impl Error for Refusal {}

/// A number that is no refusal's.
#[derive(Debug, Clone, Copy, PartialEq, Eq, Hash)]
pub struct NoRefusal(pub u32);

impl fmt::Display for NoRefusal {
    fn fmt(&self, f: &mut fmt::Formatter<'_>) -> fmt::Result {
        write!(f, "{} is the number of no refusal", self.0)
    }
}

impl Error for NoRefusal {}
