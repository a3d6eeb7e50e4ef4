#!/bin/sh
# A line of 1,048,577 bytes, one more than a line may have.
head -c 1048577 /dev/zero | tr '\0' x
echo
