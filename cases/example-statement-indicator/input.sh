cat ../examples/statement-indicator.xml
