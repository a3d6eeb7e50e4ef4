#!/bin/sh
# A configuration of 1,048,577 bytes, one more than it may have.
config=$(cat ../token_authorise_exposure/config.json)
printf '%s' "$config"
head -c $((1048577 - ${#config})) /dev/zero | tr '\0' ' '
