#!/bin/sh
# Two lines, one of 1,048,576 bytes, as many as a line may have, one of a byte more, and two further lines.
echo '{"platform":"cpo","do":"find","operator":"NL/CPA","id":"A"}'
printf '{"platform":"cpo","do":"find","operator":"NL/CPA","id":"B"%1048517s}\n' ''
head -c 1048577 /dev/zero | tr '\0' ' '
echo
echo '{"platform":"cpo","do":"find","operator":"NL/CPA","id":"C"}'
echo '{"platform":"cpo","do":"find","operator":"NL/CPA","id":"D"}'
