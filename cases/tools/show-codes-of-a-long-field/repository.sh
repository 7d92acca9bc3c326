sed 's|</dataDictionary>|<topLevelDictionaryEntry xsi:type="iso20022:CodeSet" xmi:id="_Long" name="Long"/>&|' ../examples/payment.repository
