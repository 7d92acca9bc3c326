cat ../examples/payment-no-reference.xml
