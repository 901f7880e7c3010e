#!/usr/bin/env bash
# Measures requests at transmit mailboxes that threads share, alone and by eight routes at once, beside the same under a
# lock, by the program of crates/bench.
exec "$(dirname "$0")/calls.sh" mail
