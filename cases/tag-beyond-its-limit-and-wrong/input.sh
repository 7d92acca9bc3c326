# a start tag that has 1,048,576 bytes and no end, and then a character that no tag has
printf '%s' '<Document xmlns="urn:iso:std:iso:20022:tech:xsd:demo.001.001.01"'
head -c 1048512 /dev/zero | tr '\0' ' '
printf '<'
