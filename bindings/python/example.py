"""The shared library from Python, which cannot read the header: a sound that clips lowers the volume. Usage: example.py [libagc2.so]"""
import ctypes.util
import sys

SAMPLES = 480


class Config(ctypes.Structure):
    """agc2_config: the makings take it by value, so its fields must be those of the header."""
    _fields_ = [("min_input_volume", ctypes.c_int32), ("clipped_level_min", ctypes.c_int32), ("clipped_level_step", ctypes.c_int32), ("clipped_ratio_threshold", ctypes.c_float),
                ("clipped_wait_frames", ctypes.c_int32), ("enable_clipping_predictor", ctypes.c_uint32), ("target_range_max_dbfs", ctypes.c_int32), ("target_range_min_dbfs", ctypes.c_int32),
                ("update_input_volume_wait_frames", ctypes.c_int32), ("speech_probability_threshold", ctypes.c_float), ("speech_ratio_threshold", ctypes.c_float)]


agc2 = ctypes.CDLL(sys.argv[1] if len(sys.argv) > 1 else ctypes.util.find_library("agc2") or "libagc2.so.1")
# only a library of the layout that is written down here has this name; the sixth of its numbers is the size of a Config
agc2.agc2_layout_1.restype = type("Layout", (ctypes.Structure,), {"_fields_": [("numbers", ctypes.c_uint32 * 9)]})
assert agc2.agc2_layout_1().numbers[5] == ctypes.sizeof(Config)
agc2.agc2_controller_size.restype = ctypes.c_size_t
agc2.agc2_default_config.restype = Config
agc2.agc2_new.argtypes = [ctypes.c_void_p, ctypes.c_int32, Config]
agc2.agc2_analyze_interleaved_i16.argtypes = [ctypes.c_void_p, ctypes.c_int32, ctypes.c_size_t, ctypes.POINTER(ctypes.c_int16), ctypes.c_size_t]
agc2.agc2_recommend_input_volume.argtypes = [ctypes.c_void_p, ctypes.c_float, ctypes.POINTER(ctypes.c_float), ctypes.POINTER(ctypes.c_int32)]
agc2.agc2_words.restype = ctypes.c_char_p


def taken(refusal):
    if refusal != 0:
        sys.exit(agc2.agc2_words(refusal).decode())


# as 64-bit words, since a controller's address is a multiple of 8
controller = (ctypes.c_uint64 * (agc2.agc2_controller_size() // 8))()
taken(agc2.agc2_new(controller, 1, agc2.agc2_default_config()))
volume = ctypes.c_int32(200)
for peak in [0, 30000, 32767, 32767, 0]:
    frame = (ctypes.c_int16 * SAMPLES)(*([peak] * SAMPLES))
    taken(agc2.agc2_analyze_interleaved_i16(controller, volume.value, SAMPLES, frame, SAMPLES))
    agc2.agc2_recommend_input_volume(controller, 0.9, None, ctypes.byref(volume))
    print(f"peak {peak:5}: volume {volume.value}")
