#!/usr/bin/env bash
# Nanoseconds to encode and decode an update (32 bytes) and a DATA frame with an update (76 bytes), beside the codec of an
# unverified baseline in the same run; and, without the baseline, a frame of 16 updates (560 bytes). Frames are encoded into
# buffers that are kept, and their packets are decoded into one list. The baseline has no frames: its update of 32 bytes is
# compared with both of the first two.
# usage: [BASE=FOLDER] bench/codec.sh [STEPS] [ROUNDS]     BASE: sources of the baseline instead of bench/baseline
exec "$(dirname "$0")/beside.sh" codec "$@"
