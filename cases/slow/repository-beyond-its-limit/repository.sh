# a repository and 2,147,483,648 spaces
cat shared/note.repository
head -c 2147483648 /dev/zero | tr '\0' ' '
