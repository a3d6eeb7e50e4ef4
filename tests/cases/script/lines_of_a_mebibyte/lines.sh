#!/bin/sh
# Lines of 1,048,576 bytes: a list of 524,287 zeros, as many lists that are not closed, and 262,144 objects.
printf '[0'
head -c 524286 /dev/zero | tr '\0' x | sed 's/x/,0/g'
printf ' ]\n'
head -c 1048576 /dev/zero | tr '\0' '['
echo
head -c 262144 /dev/zero | tr '\0' x | sed 's/x/{"":/g'
echo
