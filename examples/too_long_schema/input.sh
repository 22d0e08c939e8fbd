# A schema text of 1,048,577 spaces.
head -c 1048577 /dev/zero | tr '\0' ' '
