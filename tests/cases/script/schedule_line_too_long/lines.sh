#!/bin/sh
# A request of 1,048,577 bytes behind another.
printf '{"platform":"hub","do":"close","period":0}\n{"platform":"hub",'
head -c 1048535 /dev/zero | tr '\0' ' '
printf '"do":"close","period":0}\n1 All\n'
