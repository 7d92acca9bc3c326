cat ../examples/payment.xml
