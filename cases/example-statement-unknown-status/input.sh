cat ../examples/statement-unknown-status.xml
