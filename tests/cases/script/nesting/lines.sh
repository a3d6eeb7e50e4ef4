#!/bin/sh
# Lists and objects in one another, at 1, 127, 128 and 200 levels.
repeated() {
    printf "%${2}s" '' | sed "s/ /$1/g"
}
for levels in 1 127 128 200; do
    printf '%s%s\n' "$(repeated '[' $levels)" "$(repeated ']' $levels)"
    printf '%s1%s\n' "$(repeated '{"a":' $levels)" "$(repeated '}' $levels)"
done
