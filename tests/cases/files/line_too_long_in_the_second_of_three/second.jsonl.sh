#!/bin/sh
# Two requests, a line of 1,048,577 bytes and another request.
cat second_requests
head -c 1048577 /dev/zero | tr '\0' x
echo
cat second_request_behind
