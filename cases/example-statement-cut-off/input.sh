cat ../examples/statement-cut-off.xml
