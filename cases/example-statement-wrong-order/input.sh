cat ../examples/statement-wrong-order.xml
