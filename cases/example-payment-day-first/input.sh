cat ../examples/payment-day-first.xml
