# 100,000 elements that are never closed
printf '%s' '<Document xmlns="urn:iso:std:iso:20022:tech:xsd:demo.001.001.01"><Note><Nd>'
yes '<Sub>' | head -n 100000 | tr -d '\n'
