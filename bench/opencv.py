#!/usr/bin/env python3
"""opencv.py FOLDER: times OpenCV's CLAHE on the films that `bench films FOLDER` wrote, on one thread, at 16 bits, films of 8 bits at
its own 8 bits too, and noisy films of 12 bits with a thread for each processor.

Prints "SIDE BITS FILM CALL NS" a line, NS nanoseconds a pixel. CALL is `enhance` at 16 bits and `bytes` at 8, in processor time: as in
bench.c, the best of the second runs of several turns; and `clock` with one thread and `threads` with all, by the clock: the median,
as in beside.c.
The grid is 8 by 8 and the clip limit 3.0, as for all others; OpenCV uses 65536 bins at 16 bits and 256 at 8.
"""
import statistics
import sys
import time

import cv2
import numpy


def picture(folder, side, bits, film):
    with open("%s/%d-%d-%s.pgm" % (folder, side, bits, film), "rb") as source:
        data = source.read()
    start = len(data) - side * side * (1 if bits == 8 else 2)
    kind = numpy.uint8 if bits == 8 else ">u2"
    return numpy.frombuffer(data, kind, offset=start).astype(numpy.uint16).reshape(side, side)


def times(greys, rounds, clock):
    """Every second run's time."""
    clahe = cv2.createCLAHE(clipLimit=3.0, tileGridSize=(8, 8))
    out = numpy.empty_like(greys)
    took = []
    for _ in range(2 * rounds):
        began = clock()
        clahe.apply(greys, out)
        took.append(clock() - began)
    return took[1::2]


def best(greys, rounds):
    return min(times(greys, rounds, time.process_time_ns))


def by_the_clock(greys, rounds, threads):
    cv2.setNumThreads(threads)
    took = statistics.median(times(greys, rounds, time.perf_counter_ns))
    cv2.setNumThreads(1)
    return took


def main():
    cv2.setNumThreads(1)
    for side, rounds in ((512, 100), (2048, 30), (4096, 15)):
        for bits, film in ((8, "noisy"), (12, "noisy"), (12, "calm")):
            greys = picture(sys.argv[1], side, bits, film)
            print(side, bits, film, "enhance", best(greys, rounds) / side / side, flush=True)
            if bits == 8:
                print(side, bits, film, "bytes", best(greys.astype(numpy.uint8), rounds) / side / side, flush=True)
            elif film == "noisy":
                print(side, bits, film, "clock", by_the_clock(greys, rounds, 1) / side / side)
                print(side, bits, film, "threads", by_the_clock(greys, rounds, cv2.getNumberOfCPUs()) / side / side, flush=True)


if __name__ == "__main__":
    main()
