##
## This file is part of irig.
##
## Licensed under MIT or Apache-2.0, as you like: LICENSE-MIT, LICENSE-APACHE.
##

'''
IRIG-B is a time code: once a second a clock sends the date and the time in 100
pulses. Substations, among others, distribute UTC by it.

This decoder reads code B004 of IRIG Standard 200-16 (pulse width coded, no
carrier) with the control bits of IEEE 1344-1995: leap second, daylight saving,
offset from UTC, time quality, parity. It does not read the modulated code.

A pulse of 2 ms is a 0, one of 5 ms a 1, one of 8 ms a marker. A frame begins
with the second of two markers in a row; there the second begins that it codes.

A frame is read as strictly as a device should read it: it claims a second of
UTC, has too poor a quality, or has a fault.
'''

from .pd import Decoder
