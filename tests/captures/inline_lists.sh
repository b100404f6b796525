#!/bin/sh
# Reads every inline QoS list of the captured traffic with the crate's own reader: none may have a fault,
# and each must end where its sentinel does.
exec "$(dirname "$0")/read.sh" rtps_params inline_lists.py --module
