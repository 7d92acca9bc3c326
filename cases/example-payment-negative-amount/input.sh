cat ../examples/payment-negative-amount.xml
