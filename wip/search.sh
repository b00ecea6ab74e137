#!/bin/bash
# search.sh ROOT: the search over three seeds
cd $1
for seed in ${2:-11 12 13}; do echo "seed $seed"; python3 oracle/scripts/cases.py long $seed 3000 | bench/target/release/bench --rounds ${3:-5} --cases; done
