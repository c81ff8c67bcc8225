#!/bin/bash
# cgsum.sh NAME: instructions a message by function
valgrind --tool=callgrind --dump-instr=yes --callgrind-out-file=SCRATCH/cg.$1 rust/target/release/xbench alone $1 64 1 >/dev/null 2>&1
callgrind_annotate SCRATCH/cg.$1 2>/dev/null | grep -E "^\s*[0-9,]+ .*(walk|keysets|publication|intake|oddpart|slots|update|text|message|makers|opening|block|levels|qb_take_block|ranking)[:a-z_]*" | grep -v "SCRATCH/w/\|rustc" | sed 's/\[.*//' | awk '{gsub(",","",$1); n=$1/25994; t+=n; printf "%8.1f %s\n", n, $NF} END{printf "%8.1f total\n",t}' | head -30
