# a text of 10,001 characters of three bytes
printf '%s' '<Document xmlns="urn:iso:std:iso:20022:tech:xsd:demo.001.001.01"><Note><Id>'
yes '€' | head -n 10001 | tr -d '\n'
printf '%s' '</Id></Note></Document>'
