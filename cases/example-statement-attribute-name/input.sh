cat ../examples/statement-attribute-name.xml
