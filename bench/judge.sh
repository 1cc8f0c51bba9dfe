#!/bin/sh
# judge.sh [PROGRAM]: what bytes.sh says of `judge` alone: records a second, and system calls.
COMMANDS=judge exec "$(dirname "$0")/bytes.sh" "$@"
