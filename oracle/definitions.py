#!/usr/bin/env python3
"""Wrong definitions against the claims: each must break the claim that rules it out.

usage: definitions.py [FOLDER [NAME ..]]     from the repository's root; FOLDER (a new one) keeps the copy that is worked in; NAME is a wrong definition, all of them by default

A must-fail edit cannot leave its crate, and a wrong definition is refused there already, where the functions no longer meet it. To see what the claims say by themselves, this works in a copy
of the tree in which the crates below `claims` have their types and definitions alone: no functions, and no proofs but the laws that the claims rest on, which stand beside the claims. There each
claim of the page is a declaration of its own, so that the prover says of each whether its proof still stands. Each edit is applied, and the claim that is false of it is printed, with the first
fact that no longer holds among those that its proof rests on, and all claims whose proof falls. Exits with 1 if the proof of that claim stands, or falls at no fact.
"""
import os
import re
import shutil
import sys
import tempfile

from wrong import check, copy_tree, in_short, refusal, replaced

LEVELS = "crates/levels/specs/"
GAIN = "crates/gain_map/specs/"
RING = "crates/clipping_predictor_level_buffer/specs/"
PREDICTOR = "crates/clipping_predictor/specs/"
MONO = "crates/mono_input_volume_controller/specs/"
IVC = "crates/input_volume_controller/specs/"
LIBRARY = "crates/agc2/specs/"
LINES = "crates/frame_lines/specs/"
PRELUDE = "use Rattle.std.specs.Prelude.{"
MARKED = "reply = mark (differ clipped c.control e.low e.high);"
RECOMMENDED = "reply = volume (pos (process_channels probability level c.control).volume);"
APPLIED = "with_applied_input_volumes volumes c = aggregated (with_applied (Some (lowest_of volumes)) (with_channels (each_given volumes c.channels) c))"
CONTROLLING = "(aggregate_of c.channels).channel c"
THRESHOLD = "∷ in_unit c.clipped_ratio_threshold"
RATIO = "(clipped_ratio_of (length c.control.channels) samples lent)"

# What is wrong, the claim that is false of it, and for each file the text that is replaced and what replaces it. More claims may fall, since a proof may use more than its claim says:
# the one that is named is false, by a case that the claim covers.
EDITS = [
    # ---- document 01, "Shams shut out, and by what"
    ("all refused", "RefusedCalls", [
        (IVC + "Calls.antt", "specs.Frame.{", "specs.Frame.{refused_with, "),
        (IVC + "Calls.antt", "use Rattle.numbers.specs.declared.refusal.Refusal.{Refusal}\n",
         "use Rattle.numbers.specs.declared.refusal.Refusal.{Refusal}\nuse Rattle.numbers.specs.declared.refusal.Refusal.TheVariants.{FrameSize}\n"),
        (IVC + "Calls.antt", "step c (frame most volumes samples lent) = analyze_input_audio most volumes samples lent c", "step c (frame most volumes samples lent) = refused_with FrameSize c")]),
    ("one fixed volume, of the volume step", "StarredCases", [
        (GAIN + "VolumeUpdate.antt", "reached true volume = Ok (pos volume)", "reached true volume = Ok (pos 116)")]),
    # the highest volume is in every bound; so is an echo that is raised to the minimum
    ("one fixed volume, recommended", "ExampleLines", [
        (IVC + "Recommendation.antt", RECOMMENDED, "reply = volume (pos 255);")]),
    ("an echo", "Bounds", [
        (IVC + "Recommendation.antt", RECOMMENDED, "reply = volume (pos applied);")]),
    ("an echo, raised to the minimum", "ExampleLines", [
        (IVC + "Recommendation.antt", PRELUDE, PRELUDE + "max, "),
        (IVC + "Recommendation.antt", RECOMMENDED, "reply = volume (pos (max applied c.control.settings.least));")]),
    ("works on the first frame and then echoes", "ExampleLines", [
        (IVC + "Recommendation.antt", PRELUDE,
         "use Rattle.mono_input_volume_controller.specs.declared.mono.MonoInputVolumeController.{MonoInputVolumeController}\n" + PRELUDE + "max, List, [], ◌∷◌, "),
        (IVC + "Recommendation.antt", "-- \"With capture off .. recommendations repeat it\": the applied volume\n",
         "abbrev pub at_first : Bool → ℕ → ℕ → ℕ\nat_first true worked echoed = worked\nat_first false worked echoed = echoed\n\n"
         "abbrev pub at_startup : List MonoInputVolumeController → Bool\nat_startup [] = true\nat_startup (m ∷ ms) = m.startup\n\n"),
        (IVC + "Recommendation.antt", RECOMMENDED,
         "reply = volume (pos (at_first (at_startup c.control.channels) (process_channels probability level c.control).volume (max applied c.control.settings.least)));")]),
    ("none unasked", "NoneExactly", [
        (IVC + "Recommendation.antt", "unless_none (Some applied) probability level c = recommend_if c.control.used applied probability level c",
         "unless_none (Some applied) probability level c = record { reply = none; state = c }")]),
    # a ring counts as full from its first push on, with what its unused places hold: of ten frames, the ninth clipped, nine are no records of those frames
    ("a made-up stored count", "BrokenLeaves", [
        (RING + "Ring.antt", PRELUDE, PRELUDE + "◌++◌, replicate, "),
        (RING + "Ring.antt", "push capacity level records = take capacity (level ∷ records)", "push capacity level records = take capacity ((level ∷ records) ++ replicate capacity no_level)")]),
    ("a mark on every answer", "MarkedExactly", [
        (IVC + "Frame.antt", MARKED, "reply = mark true;"),
        (IVC + "Frame.antt", "reply = mark false; state = record { control = one_frame_more", "reply = mark true; state = record { control = one_frame_more"),
        (IVC + "Frame.antt", "false samples lent c = record { reply = mark false; state = c }", "false samples lent c = record { reply = mark true; state = c }")]),
    # ---- document 01, "What a hurried port would do"
    ("halves to even", "StarredCases", [
        (LEVELS + "Rounding.antt", PRELUDE, PRELUDE + "◌%◌, "),
        # a half is one less before the division where the whole part is even
        (LEVELS + "Rounding.antt", "half_up a c = (2 * a + c) / (2 * c)", "half_up a c = (2 * a + c - (1 - a / c % 2)) / (2 * c)")]),
    ("pending cleared with capture off", "NoneExactly", [
        (IVC + "Recommendation.antt", "state = record { control = aggregated c.control; predictor = c.predictor } }",
         "state = record { control = with_applied None (aggregated c.control); predictor = c.predictor } }")]),
    # then no record of before the initialise is left, with capture switched off in the list or not, and `capture_needed` is false
    ("predictor emptied at initialise", "PartsAreNeeded", [
        (IVC + "Calls.antt", "specs.Predictor.{", "specs.Predictor.{emptied, "),
        (IVC + "Calls.antt", "state = record { control = initialize c.control; predictor = c.predictor } }",
         "state = record { control = initialize c.control; predictor = emptied c.predictor } }")]),
    # ---- document 02 (ii)
    ("15 is tested before 14", "RefusedBelow", [
        (PREDICTOR + "Settings.antt", "checked_if true false levels s = Err PredictorCapacity", "checked_if true room false s = Err PredictorLevels"),
        (PREDICTOR + "Settings.antt", "checked_if true true false s = Err PredictorLevels", "checked_if true false true s = Err PredictorCapacity")]),
    ("14 where two faults stand", "RefusedBelow", [
        (PREDICTOR + "Settings.antt", "checked_if false room levels s = Err PredictorWindows", "checked_if above false levels s = Err PredictorCapacity"),
        (PREDICTOR + "Settings.antt", "checked_if true false levels s = Err PredictorCapacity", "checked_if false true levels s = Err PredictorWindows")]),
    # a window of 64 and a sum of 65 would be 7
    ("a sum is held to 64 before it is compared", "RefusedBelow", [
        (PREDICTOR + "Settings.antt", PRELUDE, PRELUDE + "min, "),
        (PREDICTOR + "Settings.antt", "checked_if (ltb window (delay + reference))", "checked_if (ltb window (min (delay + reference) max_capacity))")]),
    ("a delay is held to 64 before it is added", "RefusedBelow", [
        (PREDICTOR + "Settings.antt", "specs.Natural.{", "specs.Natural.{within_of, "),
        (PREDICTOR + "Settings.antt", "at_least_of 0 c.reference_window_delay", "within_of 0 max_capacity c.reference_window_delay")]),
    ("beside a refusal stands a predictor with the channels asked for", "RefusedBelow", [
        (PREDICTOR + "Predictor.antt", "(Err cause) = unmade cause",
         "(Err cause) = record { answer = Err cause; predictor = empty_predictor unmade_settings channels }")]),
    # ---- document 02 (x)
    ("sides 10 apart are near", "MarkedExactly", [
        (LEVELS + "Decibels.antt", "near_distance = 6", "near_distance = 10")]),
    ("sides 6 apart are not near", "MarkedExactly", [
        (LEVELS + "Decibels.antt", "near_distance = 6", "near_distance = 5")]),
    # a P that is 6 apart from a whole dB is near, and 7 are not
    ("a ceiling is near within 10", "MarkedExactly", [
        (PREDICTOR + "Estimate.antt", "specs.Decibels.{", "specs.Decibels.{within, "),
        (PREDICTOR + "Estimate.antt", "(ltb k max_gain_change && near (Finite z) (Finite (pos (k * 1000))))", "(ltb k max_gain_change && within 10 (Finite z) (Finite (pos (k * 1000))))")]),
    # with four levels rounded, sides that differ by one may be equal or the other way round
    ("only equal sides are near", "UnmarkedIsExact", [
        (LEVELS + "Decibels.antt", "near_distance = 6", "near_distance = 0")]),
    # it lies within two thousandths
    ("a level one more", "LevelsWithinOne", [
        (LEVELS + "Level.antt", "to_decimal l = (l * 643 + (8192 * 2136 - 1)) / (8192 * 2136)",
         "to_decimal l = let d = (l * 643 + (8192 * 2136 - 1)) / (8192 * 2136) in d + (d + (2 ^ 20 - 1)) / 2 ^ 20")]),
    # ---- document 02 (xiii)
    ("each channel's call skips channel 1", "EqualChannels", [
        (IVC + "Channels.antt", PRELUDE, PRELUDE + "◌++◌, take, drop, "),
        (IVC + "Channels.antt", "each_called call channels = map (called call) channels",
         "each_called call channels = take 1 (map (called call) channels) ++ (take 1 (drop 1 channels) ++ drop 2 (map (called call) channels))")]),
    ("the estimate is asked with the controller's volume before the frame", "DependsOnOne", [
        (IVC + "Frame.antt", "analyze_input_audio = frame_by predicted_by",
         "analyze_input_audio limits volumes samples lent c = frame_by (λ (a : Asked). predicted_by (record { level = c.control.volume; step = a.step; least = a.least; most = a.most })) limits volumes samples lent c")]),
    ("the controller's volume is not taken with a frame's volumes, so that the estimate reads the old one", "DependsOnOne", [
        (IVC + "ControlCalls.antt", APPLIED, APPLIED.replace("aggregated (with_applied (Some (lowest_of volumes)) (with_channels (each_given volumes c.channels) c))", "with_applied (Some (lowest_of volumes)) (with_channels (each_given volumes c.channels) c)"))]),
    ("a recommendation with capture off repeats the controller's volume", "DependsOnOne", [
        (IVC + "Recommendation.antt", "recommend_if false applied probability level c = record { reply = volume (pos applied);",
         "recommend_if false applied probability level c = record { reply = volume (pos c.control.volume);")]),
    ("the capture switch is not told to the channels", "SaidByOthers", [
        (IVC + "ControlCalls.antt", "switch_capture on c = with_used on (each_channel (CaptureOutputUsed on) c)", "switch_capture on c = with_used on c")]),
    # then all rings are empty, and nothing depends on them
    ("no record enters a ring", "DependsOnEach", [
        (PREDICTOR + "Predictor.antt", "push_each capacity (l ∷ levels) (r ∷ rings) = push capacity l r ∷ push_each capacity levels rings", "push_each capacity (l ∷ levels) (r ∷ rings) = r ∷ rings")]),
    ("beside a refused making stands a controller that channel 1 controls", "AsOneInCode", [
        (IVC + "Controller.antt", "specs.Control.{", "specs.Control.{with_volume, "),
        (IVC + "Controller.antt", "unmade cause = record { answer = Err cause; controller = fresh (settings_from defaults) 1 }",
         "unmade cause = let c = fresh (settings_from defaults) 1 in record { answer = Err cause; controller = record { control = with_volume 0 1 c.control; predictor = c.predictor } }")]),
    ("the library answers a recommendation with the controller's volume before it", "AsOneInLibrary", [
        (LIBRARY + "Calls.antt", "  pub volume : r.volume ≡ (volume_numbers says).volume", "  pub volume : r.volume ≡ pos self.volume")]),
    # ---- others
    # then the count never leaves the wait, and with the default wait two frames fewer do
    ("the wait is kept when the rings are emptied", "TwoFewerAreTooFew", [
        (IVC + "ControlCalls.antt", "aggregated (with_since 0 (each_channel (Clipping step) c))", "aggregated (each_channel (Clipping step) c)")]),
    ("the minimum is not applied", "Bounds", [
        (IVC + "ControlCalls.antt", "raised_for (Some (suc n)) least volume = max volume least", "raised_for (Some (suc n)) least volume = volume")]),
    ("a refused frame applies its volumes", "RefusedCalls", [
        (IVC + "Frame.antt", "(Err cause) volumes samples lent c = refused_with cause c", "(Err cause) volumes samples lent c = refused_with cause (with_volumes_applied volumes c)")]),
    ("a recommendation with capture on leaves the volume pending", "NoneExactly", [
        (IVC + "Recommendation.antt", "control = with_applied None (process_channels probability level c.control)", "control = process_channels probability level c.control")]),
    ("the last channel controls", "EqualChannels", [
        (IVC + "Channels.antt", "lower_if false volume channel a = a", "lower_if false volume channel a = record { volume = a.volume; channel = channel }")]),
    ("a volume out of range is cause 9", "RefusedCalls", [
        ("crates/numbers/specs/Refusal.antt", "number_of InputVolume = 8", "number_of InputVolume = 9")]),
    ("a ring's range is cause 10", "RefusedBelow", [
        ("crates/numbers/specs/Refusal.antt", "number_of RingRange = 11", "number_of RingRange = 10")]),
    # ---- document 02 (iv)
    ("7 is tested before 6", "RefusedCalls", [
        (IVC + "Controller.antt", "-- the channel count is tested first, then the settings",
         "unfoldable pub refused_first : Refusal → Result Predictor.Settings Refusal → Making\nrefused_first cause (Err other) = unmade other\n"
         "refused_first cause (Ok p) = unmade cause\n\n-- the channel count is tested first, then the settings"),
        (IVC + "Controller.antt", "unfolding made_with\nmade_of None", "unfolding made_with refused_first\nmade_of None"),
        (IVC + "Controller.antt", "made_of (Some channels) (Err cause) predictor = unmade cause",
         "made_of (Some channels) (Err cause) predictor = refused_first cause (PredictorSettings.settings_of predictor)")]),
    ("a predictor's windows are not tested where it is off", "RefusedCalls", [
        (PREDICTOR + "Settings.antt", PRELUDE, PRELUDE + "not, ◌||◌, "),
        (PREDICTOR + "Settings.antt", "checked_if (ltb window (delay + reference))", "checked_if (not c.enabled || ltb window (delay + reference))")]),
    # with the threshold -1,999 a peak of -1,500 is above it, and not above -1,000
    ("event mode compares with the threshold cut to whole dB", "UnmarkedIsExact", [
        (PREDICTOR + "Estimate.antt", "a = event_tree s.threshold s.margin window reference a", "a = event_tree (whole_db s.threshold) s.margin window reference a")]),
    # a frame at -1,062, which is quiet, would be above it
    ("the base's predictor has a threshold of -2 dB", "TwoPastsByDefault", [
        (IVC + "Controller.antt", "threshold = negsuc 999;", "threshold = negsuc 1999;")]),
    # a ring of 3 records still has one from before after the frames that are counted
    ("a ring holds 10 records, whatever the windows are", "TwoPasts", [
        (PREDICTOR + "Estimate.antt", "capacity_of s = capacity_if s.enabled (s.delay + s.reference)", "capacity_of s = capacity_if s.enabled 10")]),
    # the base's predictor would be off, and no frame fewer would be too few
    ("the switch is the predictor's own", "TwoFewerAreTooFew", [
        (IVC + "Controller.antt", "(PredictorSettings.settings_of (switched s.predicts predictor))", "(PredictorSettings.settings_of predictor)")]),
    # ---- document 02 (iii)
    # drops that are both held at the minimum return one state
    ("a frame is marked by its drops", "MarkedExactly", [
        (IVC + "Frame.antt", MARKED, "reply = mark (ltb e.low e.high);")]),
    ("no frame is marked", "UnmarkedIsExact", [
        (IVC + "Frame.antt", MARKED, "reply = mark false;")]),
    ("rings that are emptied or not do not matter", "MarkedExactly", [
        (IVC + "Differ.antt", "differ_if false true differently = true", "differ_if false true differently = differently"),
        (IVC + "Differ.antt", "differ_if true false differently = true", "differ_if true false differently = differently")]),
    # silence at a threshold 5 above it, with a margin of 5: none, and a drop with both comparisons turned
    ("a turn after a turn is not counted", "MarkedExactly", [
        (PREDICTOR + "Turned.antt", "tested true true held failed = beside held failed", "tested true true held failed = beside held (only failed.drop)"),
        (PREDICTOR + "Turned.antt", "tested false true held failed = beside failed held", "tested false true held failed = beside failed (only held.drop)")]),
    ("the other side of a near ceiling is forgotten", "UnmarkedIsExact", [
        (PREDICTOR + "Estimate.antt", "(ltb k max_gain_change && near (Finite z) (Finite (pos (k * 1000))))", "(ltb k max_gain_change && near NotANumber (Finite (pos (k * 1000))))")]),
    # another channel's sure drop may be larger than both of a turn
    ("the least drop of all channels counts, not the largest of their least", "MarkedExactly", [
        (PREDICTOR + "AllRings.antt", PRELUDE, PRELUDE + "min, "),
        (PREDICTOR + "AllRings.antt", "low = max a.low b.low; high", "low = min a.low b.low; high")]),
    # ---- levels of several channels
    ("two channels of unequal length are measured", "RefusedBelow", [
        (RING + "Level.antt", "measured_if (is_measured first && eqb (length first) (length second)) (two_records first second)", "measured_if (is_measured first && true) (two_records first second)")]),
    ("nine channels are refused for the frame's size", "RefusedBelow", [
        (PREDICTOR + "FrameLevels.antt", "measuring_if false fits = Err ChannelCount", "measuring_if false fits = Err FrameSize")]),
    # ---- document 02 (xi)
    ("a threshold that rises with the clipped samples", "CountsAreUnread", [
        (PREDICTOR + "Estimate.antt", PRELUDE, PRELUDE + "◌+ℤ◌, "),
        (PREDICTOR + "Estimate.antt", "(Finite threshold) (leaf 0) (crest_tree", "(Finite (threshold +ℤ pos window.clipped)) (leaf 0) (crest_tree")]),
    ("one clipped sample too many", "CountsWithin", [
        (RING + "Clipped.antt", "clipped_in samples = total (map count_of samples)", "clipped_in samples = 1 + total (map count_of samples)")]),
    ("a total counts each record twice", "CountsWithin", [
        (RING + "Metrics.antt", PRELUDE, PRELUDE + "◌++◌, "),
        (RING + "Metrics.antt", "clipped = total (map clipped_of items) }", "clipped = total (map clipped_of (items ++ items)) }")]),
    ("a count of 481 is pushed", "RefusedBelow", [
        (RING + "Pushing.antt", "is_count (pos n) = leb n max_samples_per_channel", "is_count (pos n) = leb n 481")]),
    # the clipped samples of a record before the lead-in are then in every later one
    ("a record adds the clipped samples of the one before", "TwoPastsInEveryMode", [
        (RING + "Ring.antt", "abbrev pub push : ℕ → Level → List Level → List Level\n",
         "abbrev pub carried : Level → List Level → Level\ncarried level [] = level\n"
         "carried level (l ∷ ls) = record { average = level.average; max = level.max; clipped = level.clipped + l.clipped }\n\n"
         "abbrev pub push : ℕ → Level → List Level → List Level\n"),
        (RING + "Ring.antt", "push capacity level records = take capacity (level ∷ records)", "push capacity level records = take capacity (carried level records ∷ records)")]),
    # ---- document 02 (xiv)
    ("every channel gets the lowest volume of the set", "EachTakesItsOwn", [
        (IVC + "ControlCalls.antt", "specs.Channels.{", "specs.Channels.{StreamAnalogLevel, "),
        (IVC + "ControlCalls.antt", APPLIED, "with_applied_input_volumes volumes c = aggregated (with_applied (Some (lowest_of volumes)) (each_channel (StreamAnalogLevel (lowest_of volumes)) c))")]),
    ("the first volume of a set is the applied one", "LowestIsApplied", [
        (IVC + "Volumes.antt", "lowest_of (volume ∷ volumes) = lowest_from volume volumes", "lowest_of (volume ∷ volumes) = volume")]),
    # of 15 and 10 with a minimum of 20 both are 20 then, and the first of them is channel 0
    ("the controlling channel is looked for after the minimum", "ControllingIsLowest", [
        (IVC + "ControlCalls.antt", PRELUDE, PRELUDE + "map, "),
        (IVC + "ControlCalls.antt", CONTROLLING,
         "(aggregate_of (map (λ m. record { least = m.least; floor = m.floor; ceiling = m.ceiling; last = m.last; used = m.used; check = m.check; startup = m.startup; "
         "volume = raised_for c.applied c.settings.least m.volume; wait = m.wait; frames = m.frames; speech = m.speech; first = m.first; probability = m.probability; ratio = m.ratio }) "
         "c.channels)).channel c")]),
    ("8 is tested before 20", "RefusedCalls", [
        (IVC + "Frame.antt", "tested_as false inside fits within = Err VolumeCount", "tested_as counted false fits within = Err InputVolume"),
        (IVC + "Frame.antt", "tested_as true false fits within = Err InputVolume", "tested_as false true fits within = Err VolumeCount")]),
    ("the volumes before a bad one are taken", "RefusedCalls", [
        (IVC + "Volumes.antt", "and_volume (Some volume) outside_set = outside_set", "and_volume (Some volume) outside_set = number_set (volume ∷ [])")]),
    ("the first volume of a set is the first channel's, and the others are nobody's", "OneVolume", [
        (IVC + "Channels.antt", "called (StreamAnalogLevel volume) m ∷ each_given volumes ms", "called (StreamAnalogLevel volume) m ∷ ms")]),
    # ---- document 02 (viii)
    ("18 is tested before 9", "ShortFrames", [
        (IVC + "Frame.antt", "tested_as true true false within = Err FrameSize", "tested_as true true fits false = Err FrameLimits"),
        (IVC + "Frame.antt", "tested_as true true true false = Err FrameLimits", "tested_as true true false true = Err FrameSize")]),
    ("160 samples are too many for the spotter's entry", "ShortFrames", [
        (IVC + "Limits.antt", PRELUDE, PRELUDE + "ltb, "),
        (IVC + "Limits.antt", "&& leb samples most.samples", "&& ltb samples most.samples")]),
    ("three channels are let through the spotter's entry", "ShortFrames", [
        (IVC + "Limits.antt", "spotter_limits = record { channels = 2;", "spotter_limits = record { channels = 3;")]),
    ("one limit of two is enough", "ShortFrames", [
        (IVC + "Limits.antt", PRELUDE, PRELUDE + "◌||◌, "),
        (IVC + "Limits.antt", "leb channels most.channels && leb", "leb channels most.channels || leb")]),
    ("everybody gets the spotter's limits", "ShortFrames", [
        (IVC + "Limits.antt", "plain_limits = record { channels = max_channels; samples = max_samples_per_channel }", "plain_limits = record { channels = 2; samples = 160 }")]),
    ("more than the spotter's limits is cause 9", "ShortFrames", [
        ("crates/numbers/specs/Refusal.antt", "number_of FrameLimits = 18", "number_of FrameLimits = 9")]),
    ("a frame that is refused with 18 applies its volumes", "ShortFrames", [
        (IVC + "Frame.antt", "-- a refusal hands the state back\n",
         "abbrev pub state_if : Bool → Controller → Controller → Controller\nstate_if true taken c = taken\nstate_if false taken c = c\n\n-- a refusal hands the state back\n"),
        (IVC + "Frame.antt", "(Err cause) volumes samples lent c = refused_with cause c",
         "(Err cause) volumes samples lent c = refused_with cause (state_if (eqb (number_of cause) 18) (with_volumes_applied volumes c) c)")]),
    # ---- document 02 (xii)
    # with a minimum of 20 and a level of 10 a channel whose last volume is 30 is moved to 15
    ("the classroom takes a clipped_level_min below the minimum", "ClassroomKeepsMinimum", [
        (MONO + "Profile.antt", "∷ le_z c.min_input_volume c.clipped_level_min", "∷ le_z c.min_input_volume c.min_input_volume")]),
    ("clipping lowers a channel past clipped_level_min", "ClassroomKeepsMinimum", [
        (MONO + "Mono.antt", "lowered m step volume = max m.floor (volume - step)", "lowered m step volume = volume - step")]),
    # below 0 every frame is clipping, and the count since clipping stays what the past made it
    ("the classroom takes any clipped-ratio threshold", "TwoPastsInClassroom", [
        (MONO + "Profile.antt", THRESHOLD, "∷ true")]),
    ("19 is tested before 6", "RefusedCalls", [
        (IVC + "Profile.antt", "refused_outside (Err cause) plain = plain", "refused_outside (Err cause) plain = unmade ClassroomProfile")]),
    ("the classroom refuses a threshold of 1", "RefusedCalls", [
        (MONO + "Profile.antt", THRESHOLD, "∷ (in_unit c.clipped_ratio_threshold && lib.Ieee.lt c.clipped_ratio_threshold (lib.Ieee.of_int lib.Ieee.binary32 (pos 1)))")]),
    ("the classroom takes a threshold that is not a number", "RefusedCalls", [
        (MONO + "Profile.antt", PRELUDE, PRELUDE + "not, "),
        (MONO + "Profile.antt", THRESHOLD,
         "∷ (not (lib.Ieee.lt c.clipped_ratio_threshold (lib.Ieee.of_int lib.Ieee.binary32 (pos 0))) && not (lib.Ieee.lt (lib.Ieee.of_int lib.Ieee.binary32 (pos 1)) c.clipped_ratio_threshold))")]),
    ("the classroom takes crossed targets", "RefusedCalls", [
        (MONO + "Profile.antt", "∷ le_z c.target_range_min_dbfs c.target_range_max_dbfs", "∷ true")]),
    ("the classroom takes all settings", "ClassroomIsNeeded", [
        (MONO + "Profile.antt", "takes Classroom c = all_hold (classroom_conditions c)", "takes Classroom c = true")]),
    ("the classroom takes one wait below 100", "RefusedCalls", [
        (MONO + "Profile.antt", "(le_z (pos 100) c.clipped_wait_frames && le_z", "(le_z (pos 100) c.clipped_wait_frames || le_z"),
        (MONO + "Profile.antt", PRELUDE, PRELUDE + "◌||◌, ")]),
    # then the default settings are not the classroom's
    ("the classroom's minimum is 21 to 70", "ClassroomIsNeeded", [
        (MONO + "Profile.antt", "∷ in_range (pos 20) (pos 70)", "∷ in_range (pos 21) (pos 70)")]),
    # then no word on the threshold is needed, and `word_needed` is false
    ("a frame without a clipped sample is never clipping", "PartsAreNeeded", [
        (IVC + "Frame.antt", PRELUDE, PRELUDE + "◌&&◌, "),
        (IVC + "Frame.antt", "(lt c.control.settings.clipped_ratio " + RATIO + ")",
         "(lt (lib.Ieee.of_int lib.Ieee.binary32 (lib.IntN.pos 0)) " + RATIO + " && lt c.control.settings.clipped_ratio " + RATIO + ")")]),
    # ---- samples as devices give them
    ("a full scale of 32,767", "SamplesAreExact", [
        (LIBRARY + "Samples.antt", "full_scale = of_int binary32 (pos 32768)", "full_scale = of_int binary32 (pos 32767)")]),
    # ---- one spelling of a frame line
    ("capitals are kept", "BlanksAndCapitalsForgiven", [
        (LINES + "Forgiven.antt", "lowered c = lowered_if (is_capital c) c", "lowered c = lowered_if false c")]),
    ("a tab is a blank, and a blank is none", "BlanksAndCapitalsForgiven", [
        (LINES + "Forgiven.antt", "is_space c = eqb c 32", "is_space c = eqb c 9")]),
    ("2,001 characters are taken if some are blanks", "BlanksAndCapitalsForgiven", [
        (LINES + "Forgiven.antt", "lenient_meaning line = lenient_if (leb (length line) most_characters) line", "lenient_meaning line = lenient_if true line")]),
    # the line of document 01 with an empty sample field is one of three fields
    ("a line of three fields is refused", "OneSpelling", [
        (LINES + "Forgiven.antt", "with_samples (a ∷ b ∷ c ∷ []) = a ∷ b ∷ c ∷ [] ∷ []", "with_samples (a ∷ b ∷ c ∷ []) = a ∷ b ∷ c ∷ []")]),
    ("a not-a-number is written as another", "OneSpelling", [
        (LINES + "Spelling.antt", PRELUDE, PRELUDE + "min, "),
        (LINES + "Spelling.antt", "level_text (Some bits) = digits_of 8 bits", "level_text (Some bits) = digits_of 8 (min bits (2 ^ 32 - 2 ^ 22))")]),
    ("a sample is written without its sign", "OneSpelling", [
        (LINES + "Spelling.antt", "unsigned16 (negsuc n) = 2 ^ 16 - suc n", "unsigned16 (negsuc n) = suc n")]),
]


def rewritten(path, change):
    """A file's text becomes another."""
    with open(path) as f:
        text = change(f.read())
    with open(path, "w") as f:
        f.write(text)


def below_claims():
    """The crates that `claims` names in crates.txt; a library of the kit is no crate here."""
    with open("crates.txt") as f:
        return [name for name in next(line for line in f if line.startswith("claims:")).split()[1:] if os.path.isdir("crates/" + name)]


def types_alone(text):
    """The source without its functions, the lines that name them, and the ghost fields; a private type is open, for the laws that speak of it and move to the claims."""
    def types_of(m):
        kept = [name for name in re.findall(r"\w+(?: as \w+)?", m[2]) if name[0].isupper()]
        return f"{m[1]}{{{', '.join(kept)}}};\n" if kept else ""
    text = re.sub(r"^ghost use [^;]*;\n|^    ghost \w+: .*\n", "", text, flags=re.M)
    text = re.sub(r"^((?:pub )?use (?:\w+::)+)(\w+(?: as \w+)?|\{[^{}]*\});\n", types_of, text, flags=re.M)
    out, lines, i = [], text.split("\n"), 0
    while i < len(lines):
        if re.match(r'(pub(\(crate\))? )?(extern "C" )?fn |impl ', lines[i]):
            while out and out[-1].startswith(("//", "#[")):
                out.pop()
            while lines[i] != "}":
                i += 1
        else:
            out.append(lines[i])
        i += 1
    return re.sub(r"^(enum|struct) ", r"pub \1 ", "\n".join(out), flags=re.M) + "\n"


# (`std` and the other libraries of the kit are no crates here)
LAW = r"Rattle\.(\w+)\.proofs\.(\w+)"


def laws_in(text):
    """The (crate, module) of each file of laws that a text names, of the crates below `claims`."""
    return [law for law in re.findall(LAW, text) if law[0] in below_claims()]


def beside(law):
    """The name of a file of laws among the claims' proofs."""
    return "".join(word.capitalize() for word in law[0].split("_")) + law[1]


def beside_claims(text):
    """A text of a crate below, as it reads among the claims' proofs."""
    def name(m):
        return "Rattle.claims.proofs." + beside(m.groups()) if m[1] in below_claims() else m[0]
    return re.sub(LAW, name, text)


def definitions_alone():
    """The crates below keep their types and definitions; the laws that the claims rest on, and the laws that those rest on, move to the claims."""
    proofs = "crates/claims/proofs/"
    laws, named = set(), []
    for name in os.listdir(proofs):
        with open(proofs + name) as f:
            named += laws_in(f.read())
        rewritten(proofs + name, beside_claims)
    while named:
        law = named.pop()
        if law not in laws:
            laws.add(law)
            with open(f"crates/{law[0]}/proofs/{law[1]}.antt") as f:
                text = f.read()
            named += laws_in(text)
            with open(f"{proofs}{beside(law)}.antt", "w") as f:
                f.write(beside_claims(text))
    rewritten(proofs + "Lib.antt", lambda text: text + "".join(f"pub mod {beside(law)}\n" for law in sorted(laws)))
    for crate in below_claims():
        shutil.rmtree(f"crates/{crate}/proofs", ignore_errors=True)
        for name in os.listdir(f"crates/{crate}/src"):
            rewritten(f"crates/{crate}/src/{name}", types_alone)


def each_by_itself():
    """The claims on the page, each now also a declaration `its_NAME` of proofs/Claims.antt; and for each the file that proves it and the lemma there."""
    with open("crates/claims/specs/Claims.antt") as f:
        page = f.read()
    with open("crates/claims/proofs/Claims.antt") as f:
        text = f.read()
    fields = re.findall(r"^  pub (\S+) : (\w+)$", page, re.M)
    terms = dict(re.findall(r"^  (\S+) = (.*);$", text, re.M))
    modules = {name: module for module, names in re.findall(r"Rattle\.claims\.proofs\.(\w+)\.\{(.*?)\}", text, re.S) for name in re.split(r"[,\s]+", names)}
    uses = "\n".join(line for line in page.split("\n") if line.startswith("use "))
    with open("crates/claims/proofs/Claims.antt", "w") as f:
        f.write(text.replace("\npub claims :", uses + "\n\npub claims :"))
        f.writelines(f"\npub its_{claim} : {claim}\nits_{claim} = {terms[field]}\n" for field, claim in fields)
    return {claim: (modules[terms[field]], terms[field]) for field, claim in fields}


def fallen(out, claims):
    """The claims whose declaration the prover did not take."""
    said = set(re.findall(r"proofs/Claims\.antt:\S+ error: `its_(\w+)`", out))
    lost = set(re.findall(r"proofs/Claims\.antt:\S+ error: \d+ declarations? that depends? on `(\S+)`", out))
    return [claim for claim in claims if claim in said or claims[claim][1] in lost]


def rests_on(module):
    """The files of laws that a file rests on, itself first, then by how far below it they stand."""
    files = [module]
    for file in files:
        with open(f"crates/claims/proofs/{file}.antt") as f:
            files += [law for law in dict.fromkeys(re.findall(r"Rattle\.claims\.proofs\.(\w+)", f.read())) if law not in files]
    return [f"claims/proofs/{file}.antt" for file in files]


def verdict(out, claim, claims):
    """Whether a wrong definition breaks its claim at a fact that the claim's proof rests on, and in what words."""
    facts, others = refusal(out)
    broken = fallen(out, claims)
    below = rests_on(claims[claim][0]) if claim in broken else []
    facts = sorted((fact for fact in facts if fact[0] in below), key=lambda fact: below.index(fact[0]))
    if not facts:
        return False, f"DOES NOT BREAK {claim} AT A FACT; proofs that fall: {', '.join(broken) or 'none'}; {in_short(others[0]) if others else ''}"
    return True, f"breaks {claim}, {in_short(facts[0])} ({len(broken)} of {len(claims)} proofs fall: {', '.join(broken)})"


def main():
    copy_tree(sys.argv[1] if len(sys.argv) > 1 else tempfile.mkdtemp())
    definitions_alone()
    claims = each_by_itself()
    proved, out = check("claims")
    if not proved:
        sys.exit("the copy itself is not proved:\n" + out)
    edits = [edit for edit in EDITS if edit[0] in (sys.argv[2:] or edit)]
    survived = 0
    for name, claim, changes in edits:
        with replaced(changes):
            broken, words = verdict(check("claims")[1], claim, claims)
        print(f"{name}: {words}", flush=True)
        survived += not broken
    print(f"{len(edits)} wrong definitions, {len(edits) - survived} break their claim")
    sys.exit(survived != 0)


main()
