# a code of 65537 characters
cat <<'HEAD'
<iso20022:Repository xmlns:iso20022="urn:iso:std:iso:20022:2013:ecore" xmlns:xmi="http://www.omg.org/XMI" xmlns:xsi="http://www.w3.org/2001/XMLSchema-instance">
<dataDictionary>
<topLevelDictionaryEntry xsi:type="iso20022:CodeSet" xmi:id="_t" name="LongCode">
HEAD
printf '<code name="A" codeName="'
head -c 65537 /dev/zero | tr '\0' a
echo '"/></topLevelDictionaryEntry>'
cat <<'FOOT'
</dataDictionary>
<businessProcessCatalogue><topLevelCatalogueEntry>
<messageDefinition name="NoteV01" xmlTag="Note">
<messageBuildingBlock name="Identification" xmlTag="Id" minOccurs="1" maxOccurs="1" simpleType="_t"/>
<messageDefinitionIdentifier businessArea="demo" messageFunctionality="001" flavour="001" version="01"/>
</messageDefinition>
</topLevelCatalogueEntry></businessProcessCatalogue>
</iso20022:Repository>
FOOT
