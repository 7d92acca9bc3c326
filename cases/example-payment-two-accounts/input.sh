cat ../examples/payment-two-accounts.xml
