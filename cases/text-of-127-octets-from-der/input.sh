# 30 81 84 A0 81 81 80 7F, and 127 times x
printf '\060\201\204\240\201\201\200\177'
head -c 127 /dev/zero | tr '\0' 'x'
