cat ../examples/statement-latin-1.xml
