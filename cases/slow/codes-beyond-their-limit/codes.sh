# 268,435,457 bytes
head -c 268435457 /dev/zero
