cat ../examples/payment-another-version.xml
