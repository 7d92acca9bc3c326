# 100,000 elements, one within the other
echo '<?xml version="1.0" encoding="UTF-8"?>'
printf '%s' '<Document xmlns="urn:iso:std:iso:20022:tech:xsd:demo.001.001.01"><Note><Nd>'
yes '<Sub>' | head -n 100000 | tr -d '\n'
yes '</Sub>' | head -n 100000 | tr -d '\n'
echo '</Nd></Note></Document>'
