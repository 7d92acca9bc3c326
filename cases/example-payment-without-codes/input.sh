cat ../examples/payment-unknown-code.xml
