# a start tag of 1,048,577 bytes
printf '%s' '<Document xmlns="urn:iso:std:iso:20022:tech:xsd:demo.001.001.01"'
head -c 1048512 /dev/zero | tr '\0' ' '
printf '%s' '><Note><Id>A1</Id></Note></Document>'
