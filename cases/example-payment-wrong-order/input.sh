cat ../examples/payment-wrong-order.xml
