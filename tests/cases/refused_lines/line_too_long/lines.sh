# An empty line, and one of 1,048,577 bytes.
echo
head -c 1048577 /dev/zero | tr '\0' 7
