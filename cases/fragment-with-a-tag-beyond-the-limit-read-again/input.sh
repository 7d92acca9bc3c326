# the fragment with its tag of 1,100,017 bytes
printf '<?xml version="1.0" encoding="UTF-8"?>\n'
printf '<Document xmlns="urn:iso:std:iso:20022:tech:xsd:demo.001.001.01"><Note><Ev><a xmlns="" b="'
head -c 1100000 /dev/zero | tr '\0' 'x'
printf '"></a></Ev></Note></Document>\n'
