cat ../examples/statement-no-such-day.xml
