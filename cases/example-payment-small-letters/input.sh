cat ../examples/payment-small-letters.xml
