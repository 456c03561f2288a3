#!/usr/bin/env python3
"""Writes one frame of a stream of P6 images as a PNG, with nothing but Python's own library.

usage: tools/png_of_frame.py [NUMBER] < frames.ppm > frame.png     (NUMBER counts from 1; 1 if left out)
"""
import sys

sys.dont_write_bytecode = True
from pictures import p6_images, png_of_picture  # noqa: E402


def main():
    number = int(sys.argv[1]) if len(sys.argv) > 1 else 1
    for count, picture in enumerate(p6_images(sys.stdin.buffer), 1):
        if count == number:
            sys.stdout.buffer.write(png_of_picture(picture))
            return
    sys.exit(f"there are fewer than {number} frames")


if __name__ == "__main__":
    main()
