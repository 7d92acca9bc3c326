cat ../examples/payment-unknown-element.xml
