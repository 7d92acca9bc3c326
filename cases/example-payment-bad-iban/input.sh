cat ../examples/payment-bad-iban.xml
