sed -e 's|<\(/\{0,1\}\)\([A-Z]\)|<\1Doc:\2|g' -e 's|xmlns="|xmlns:Doc="|' ../examples/payment.xml
