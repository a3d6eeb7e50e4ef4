#!/bin/sh
# A configuration of 2,000,000 bytes.
config=$(cat ../token_authorise_exposure/config.json)
printf '%s' "$config"
head -c $((2000000 - ${#config})) /dev/zero | tr '\0' ' '
