# numbers of 5,000 digits, more than Python reads at a time: too large, but those that are zeros and a 3
nines=$(printf '%05000d' 0 | tr 0 9)
cat <<END
<xs:schema xmlns:xs="http://www.w3.org/2001/XMLSchema" xmlns="urn:iso:std:iso:20022:tech:xsd:demo.011.001.01" elementFormDefault="qualified" targetNamespace="urn:iso:std:iso:20022:tech:xsd:demo.011.001.01">
<xs:element name="Document" type="Document"/>
<xs:complexType name="Document"><xs:sequence><xs:element name="Msg" type="MsgV01"/></xs:sequence></xs:complexType>
<xs:complexType name="MsgV01"><xs:sequence>
<xs:element name="A" type="Text1" maxOccurs="$nines"/>
<xs:element name="B" type="Number1" minOccurs="$(printf '%05000d' 0)"/>
</xs:sequence></xs:complexType>
<xs:simpleType name="Text1"><xs:restriction base="xs:string"><xs:minLength value="$(printf '%05000d' 3)"/>
<xs:maxLength value="$nines"/></xs:restriction></xs:simpleType>
<xs:simpleType name="Number1"><xs:restriction base="xs:decimal"><xs:minInclusive value="1"/>
<xs:maxInclusive value="$nines"/>
</xs:restriction></xs:simpleType>
</xs:schema>
END
