#!/bin/sh
# A line of 1,048,576 bytes, as many as a line may have, and one after it.
head -c 1048576 /dev/zero | tr '\0' x
echo
printf '[]\n'
