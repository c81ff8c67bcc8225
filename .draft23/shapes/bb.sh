#!/bin/bash
# bb.sh NAMES..: links obj/NAME.o's into the bench
cd SCRATCH/obj && rm -f libshapes.a && ar rcs libshapes.a $(for n in "$@"; do echo $n.o; done) && cd ../rust/bench && python3 gen.py "$@" && cd .. && cargo build --release --offline -q -p xbench 2>&1 | grep -E "^error" -A8 | head -40
