# Reads a stamp and writes it as text, by the shared library.
from ctypes import CDLL, POINTER, c_bool, c_char_p, c_int32, c_int64, c_size_t, c_uint32, c_uint64, create_string_buffer

library = CDLL("libstamp.so.1")
library.stamp_read.argtypes = [c_uint32, c_char_p, c_size_t, c_int64 * 8]
library.stamp_write.argtypes = [c_uint32] * 4 + [c_uint64, c_int32, c_bool, c_uint32, c_uint32, c_char_p, c_size_t, POINTER(c_size_t)]
lent, parts, text, count = bytes.fromhex("FEF2FFFFFFFFFF"), (c_int64 * 8)(), create_string_buffer(32), c_size_t()
refusal = library.stamp_read(5, lent, len(lent), parts)  # 5: a DatetimeTz
kind, form, digits, year, month, day, micros, offset = parts
refusal = refusal or library.stamp_write(kind, year, month, day, micros, offset, False, 0, 3, text, len(text), count)
print(f"refusal {refusal}" if refusal else text.raw[:count.value].decode())
