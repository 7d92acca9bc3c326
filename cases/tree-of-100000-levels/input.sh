# 100,000 elements, one within the other
printf '%s' '<Document xmlns="urn:iso:std:iso:20022:tech:xsd:demo.001.001.01"><Note><Nd>'
yes '<Sub>' | head -n 100000 | tr -d '\n'
yes '</Sub>' | head -n 100000 | tr -d '\n'
printf '%s' '</Nd></Note></Document>'
