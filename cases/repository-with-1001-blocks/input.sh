# an instance with 1,001 blocks
printf '%s' '<Document xmlns="urn:iso:std:iso:20022:tech:xsd:demo.001.001.01"><Note>'
seq 1001 | sed 's/.*/<B&>x<\/B&>/' | tr -d '\n'
printf '%s' '</Note></Document>'
