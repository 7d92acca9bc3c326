cat ../examples/statement.xml
