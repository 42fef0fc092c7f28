#!/bin/sh
# Measures `apply` of this program beside that of another one with the same words: bench/compare.sh PROGRAM OTHER
exec python3 -B "$(dirname "$0")/compare.py" "$@"
