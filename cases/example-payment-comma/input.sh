cat ../examples/payment-comma.xml
