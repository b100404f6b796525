#!/bin/sh
# Reads every submessage of the captured traffic with the crate's own reader: each message must be read to
# its end without a fault.
exec "$(dirname "$0")/read.sh" rtps_submsg submessages.py
