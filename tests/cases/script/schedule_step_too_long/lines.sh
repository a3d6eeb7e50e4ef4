#!/bin/sh
# A step of a million digits, and one line that is no step before it.
printf '{"platform":"hub","do":"close","period":0}\n1 Begin\n1 Start\n'
head -c 1048577 /dev/zero | tr '\0' 1
printf ' Order\n'
