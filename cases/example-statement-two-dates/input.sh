cat ../examples/statement-two-dates.xml
