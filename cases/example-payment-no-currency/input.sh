cat ../examples/payment-no-currency.xml
