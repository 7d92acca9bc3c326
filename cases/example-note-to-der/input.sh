cat ../examples/note.xml
