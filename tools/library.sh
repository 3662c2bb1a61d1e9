#!/usr/bin/env bash
# Builds the proved library for Rust and C, target/staticlib/libexport.a; what is below it is proved first where it has
# changed.
set -eu
cd "$(dirname "${BASH_SOURCE[0]}")/.."
(cd crates/export && rt lib)
mkdir -p target/staticlib
cp crates/export/out/libexport.a target/staticlib/
