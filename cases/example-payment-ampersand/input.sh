cat ../examples/payment-ampersand.xml
