cat ../examples/statement-thousands.xml
