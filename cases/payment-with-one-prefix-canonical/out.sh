cat example-payment-canonical/out
