#!/bin/sh
# 1,048,576 steps, of which most cannot be taken.
printf '{"platform":"hub","do":"close","period":0}\n1 Begin\n1 Order\n'
yes '1 Collect NL/CPB' | head -n 1048571
printf '1 Collect NL/CPA\n1 End\n1 End\n'
