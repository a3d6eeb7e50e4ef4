#!/bin/sh
# A request of 1,048,576 bytes, as many as a line may have.
printf '{"platform":"hub",'
head -c 1048534 /dev/zero | tr '\0' ' '
printf '"do":"close","period":0}\n1 All\n'
