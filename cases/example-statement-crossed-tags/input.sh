cat ../examples/statement-crossed-tags.xml
