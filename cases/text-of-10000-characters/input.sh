# a text of 10,000 characters of three bytes
printf '%s' '<Document xmlns="urn:iso:std:iso:20022:tech:xsd:demo.001.001.01"><Note><Id>'
yes '€' | head -n 10000 | tr -d '\n'
printf '%s' '</Id></Note></Document>'
