#!/bin/sh
# Writes a wave file of one second to standard output: one channel of 16 bits at 48,000 Hz, a square
# wave of 1,000 Hz at an eighth of full scale.
#
# usage: sh examples/one-second.sh > tone.wav
set -eu

# 24 samples of a value, which is given as its two bytes
half() {
    sample=0
    while [ "$sample" -lt 24 ]; do
        printf "$1"
        sample=$((sample + 1))
    done
}

# so many periods: 4096, and then -4096
periods() {
    period=0
    while [ "$period" -lt "$1" ]; do
        half '\000\020'
        half '\000\360'
        period=$((period + 1))
    done
}

# A number in a wave has its lowest byte first: 96,036 bytes follow the size, and 96,000 are samples.
printf 'RIFF\044\167\001\000WAVE'
printf 'fmt \020\000\000\000\001\000\001\000\200\273\000\000\000\167\001\000\002\000\020\000'
printf 'data\000\167\001\000'
periods 1000
