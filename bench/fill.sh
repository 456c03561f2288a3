#!/usr/bin/env bash
# Times filling a canvas: all of one of 4096 by 4096 pixels, 100 times, and all of one of 300 by 200, opaque and
# translucent, and prints the time a pixel; beside the large one how many times that of a memset of as many bytes it is,
# where there is a C compiler. Builds the programs in a temporary folder.
# Bar: 1.3 times a memset where the colour is opaque, 3.3 times where it is translucent.
#
# usage: bench/fill.sh
set -euo pipefail
top=$(cd "$(dirname "$0")/.." && pwd)
folder=$(mktemp -d)
trap 'rm -rf "$folder"' EXIT
mkdir -p "$folder/crates/fills/src" "$folder/crates/fills/specs"
for crate in item_geometry outside rect_raster; do
    cp -r "$top/crates/$crate" "$folder/crates/$crate"
done
cp "$top/HANDLES" "$folder/HANDLES"
printf 'item_geometry:\noutside:\nrect_raster: outside item_geometry\nfills: rect_raster\n' > "$folder/crates.txt"
: > "$folder/crates/fills/specs/Lib.antt"
cat > "$folder/crates/fills/src/main.rt" <<'PROGRAM'
//! Times fills.
#![tactic(auto)]

use rect_raster::{Canvas, ClipRect, fill};
use std::alloc::Global;
use std::io;
use std::time::{Clock, Instant};

fn fill_often(canvas: &mut Canvas, rect: ClipRect, argb: u32, count: u32) {
    for _ in 0..count {
        fill(canvas, rect, argb);
    }
}

fn measure(rt: &(impl Print + Clock), alloc: Global, width: u32, height: u32, argb: u32, count: u32) -> io::Result<()> {
    let mut canvas = Canvas::new(alloc, width, height)?;
    let rect = ClipRect {
        left: 0,
        top: 0,
        right: i64::from(width),
        bottom: i64::from(height),
    };
    fill(&mut canvas, rect, argb);
    let began = Instant::now(rt)?;
    fill_often(&mut canvas, rect, argb, count);
    let taken = began.elapsed(rt)?.as_nanos();
    println!(rt; "fills {width} {height} {argb} {count} {taken}")?;
    Ok(())
}

fn main(rt: HostRuntime) -> io::Result<()> {
    for argb in [0xff12_3456, 0x8012_3456] {
        measure(&rt, rt.alloc(), 4096, 4096, argb, 100)?;
        measure(&rt, rt.alloc(), 300, 200, argb, 5000)?;
    }
    Ok(())
}
PROGRAM
cd "$folder/crates/fills"
rt run > "$folder/log" 2>&1 || { cat "$folder/log"; exit 1; }
cat > "$folder/memset.c" <<'PROGRAM'
#include <stdio.h>
#include <stdlib.h>
#include <string.h>
#include <time.h>
int main(void) {
    size_t bytes = 3u * 4096 * 4096;
    char *pixels = malloc(bytes);
    struct timespec from, to;
    memset(pixels, 1, bytes);
    clock_gettime(CLOCK_MONOTONIC, &from);
    for (int i = 0; i < 100; i++) { memset(pixels, i, bytes); __asm__ volatile("" : : "r"(pixels) : "memory"); }
    clock_gettime(CLOCK_MONOTONIC, &to);
    printf("%f\n", ((to.tv_sec - from.tv_sec) * 1e9 + (to.tv_nsec - from.tv_nsec)) / (100.0 * 4096 * 4096));
}
PROGRAM
plain=0
if command -v cc > /dev/null && cc -O2 -o "$folder/memset" "$folder/memset.c"; then plain=$("$folder/memset"); fi
awk -v plain="$plain" '$1 == "fills" {
    each = $6 / ($5 * $2 * $3)
    printf "%d by %d, %s: %.3f ns a pixel", $2, $3, ($4 >= 4278190080 ? "opaque" : "translucent"), each
    if (plain > 0 && $2 == 4096) printf ", %.2f times a memset (%.3f ns)", each / plain, plain
    printf "\n"
}' "$folder/log"
