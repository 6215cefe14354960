#!/bin/sh
# Times pair_files on two models of 16 states each beside a plain C program on the same files. Needs cc and crates/pair_files/out/pair_files.
set -eu
. "$(dirname "$0")/timing.sh"
compare pair_files pair_files.c 16 side.bin side.bin side.bin
