cat ../examples/statement-no-balance.xml
