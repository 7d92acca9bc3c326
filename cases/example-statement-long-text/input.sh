cat ../examples/statement-long-text.xml
