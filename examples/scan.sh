#!/bin/sh
# The numbers of a scan-sized request: 4,096 samples of an interferogram with its burst in the middle, schedule 1, modulo 998,244,353
# with the root 3^((m-1)/4,096) = 63912897 for that length.
m=998244353 root=63912897 points=4096
echo "$m 1 $points"
power=1 i=0
while [ "$i" -lt $((points / 2)) ]; do
    echo "$power"
    power=$((power * root % m))
    i=$((i + 1))
done
i=0
while [ "$i" -lt "$points" ]; do
    off=$((i - points / 2))
    [ "$off" -lt 0 ] && off=$((-off))
    echo $((16384 + 16000 * 32 / (32 + off * off)))
    i=$((i + 1))
done
