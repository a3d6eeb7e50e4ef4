#!/bin/sh
# A line of 1,048,577 bytes behind two others.
printf '\n[]\n'
head -c 1048577 /dev/zero | tr '\0' x
