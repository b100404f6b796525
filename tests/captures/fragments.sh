#!/bin/sh
# Hears every message of the captured traffic with the reader that joins fragments: none of them has any, so each must
# tell as many facts as it does without that reader, and end as it does.
exec "$(dirname "$0")/read.sh" rtps_frag fragments.py
