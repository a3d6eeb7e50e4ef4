#!/bin/sh
# A thousand calls, of which the last is taken alone, and the others are never begun.
yes '{"platform":"hub","do":"close","period":0}' | head -n 1000
printf '1000 All\n1 End\n'
