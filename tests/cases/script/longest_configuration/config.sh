#!/bin/sh
# A configuration of 1,048,576 bytes, as many as it may have.
config=$(cat ../token_authorise_exposure/config.json)
printf '%s' "$config"
head -c $((1048576 - ${#config})) /dev/zero | tr '\0' ' '
