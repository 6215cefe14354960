#!/bin/sh
# Times gctl on models of 256 states beside a plain C program on the same file, and beside a program that does nothing. Needs cc and crates/gctl/out/gctl.
set -eu
. "$(dirname "$0")/timing.sh"
compare gctl headline.c 256 model.bin
