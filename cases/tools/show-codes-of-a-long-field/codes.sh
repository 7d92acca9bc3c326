cat ../examples/payment.codes
printf 'Long,'
head -c 200000 /dev/zero | tr '\0' x
echo
