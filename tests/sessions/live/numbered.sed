# The lines of examples/phone.script in numbers.
s/^do modem POWER_STATE_NOTIFY cpu on$/do 2 0x11 0x6 0 1/
s/^do ap POWER_STATE_SET cpu off$/do 1 0x11 0x4 0 0 0x40000000/
s/^flush modem$/flush 2/
s/^p2a modem$/p2a 2/
s/^fail ap POWER_STATE_SET cpu on$/fail 1 0x11 0x4 0 0 0/
s/^do ap POWER_STATE_GET cpu$/do 1 0x11 0x5 0/
s/^do ap CLOCK_RATE_SET async bus 600MHz$/do 1 0x14 0x5 1 1 0x23c34600 0/
s/^flush ap$/flush 1/
s/^p2a ap$/p2a 1/
s/^restart modem$/restart 2/
