# 16,777,216 spaces behind the block
printf '%s' '<Document xmlns="urn:iso:std:iso:20022:tech:xsd:demo.001.001.01"><Note><Id>A1</Id>'
head -c 16777216 /dev/zero | tr '\0' ' '
printf '%s' '</Note></Document>'
