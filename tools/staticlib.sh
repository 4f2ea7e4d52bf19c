#!/usr/bin/env bash
# Builds the static library for callers in C, target/staticlib/libgeometry.a, from the crate geometry_c; include/hovantsi.h declares it.
set -eu
cd "$(dirname "$0")/../crates/geometry_c"
rt lib
mkdir -p ../../target/staticlib
cp out/libgeometry_c.a ../../target/staticlib/libgeometry.a
