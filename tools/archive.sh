#!/bin/bash
# Builds the static library of the C surface from the proved crates and lays it where the other scripts look for it.
set -eu
cd "$(dirname "${BASH_SOURCE[0]}")/.."
(cd crates/yesbrulka && rt lib)
mkdir -p target/staticlib
cp crates/yesbrulka/out/libyesbrulka.a target/staticlib/libyesbrulka.a
