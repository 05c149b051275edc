#!/bin/sh
# Makes target/staticlib/libpulses.a, the library that C programs link. Run from the
# repository's root.
set -eu

(cd crates/pulses_c && rt lib)
mkdir -p target/staticlib
cp crates/pulses_c/out/libpulses_c.a target/staticlib/libpulses.a
