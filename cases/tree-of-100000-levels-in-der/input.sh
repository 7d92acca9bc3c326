# 100,000 values, one within the other, within those of the block, the note and the document
printf "$(awk 'BEGIN {
    length_of = 0
    for (level = 100002; level >= 0; level--) {
        n = length_of
        if (n < 128) octets = sprintf("\\%03o", n)
        else if (n < 256) octets = sprintf("\\201\\%03o", n)
        else if (n < 65536) octets = sprintf("\\202\\%03o\\%03o", int(n / 256), n % 256)
        else octets = sprintf("\\203\\%03o\\%03o\\%03o", int(n / 65536), int(n / 256) % 256, n % 256)
        header[level] = (level == 0 ? "\\060" : "\\240") octets
        length_of = n + length(header[level]) / 4
    }
    for (level = 0; level <= 100002; level++) printf "%s", header[level]
}')"
