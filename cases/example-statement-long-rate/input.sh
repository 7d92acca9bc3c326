cat ../examples/statement-long-rate.xml
