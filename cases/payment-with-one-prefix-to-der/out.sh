sh example-payment-to-der/out.sh
