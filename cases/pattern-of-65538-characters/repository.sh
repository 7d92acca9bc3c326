# a pattern of 65,538 characters, which has one position
cat <<'HEAD'
<iso20022:Repository xmlns:iso20022="urn:iso:std:iso:20022:2013:ecore" xmlns:xmi="http://www.omg.org/XMI" xmlns:xsi="http://www.w3.org/2001/XMLSchema-instance">
<dataDictionary>
HEAD
printf '<topLevelDictionaryEntry xsi:type="iso20022:Text" xmi:id="_t" name="Max35Text" pattern="['
head -c 65536 /dev/zero | tr '\0' a
echo ']"/>'
cat <<'FOOT'
</dataDictionary>
<businessProcessCatalogue><topLevelCatalogueEntry>
<messageDefinition name="NoteV01" xmlTag="Note">
<messageBuildingBlock name="Identification" xmlTag="Id" minOccurs="1" maxOccurs="1" simpleType="_t"/>
<messageDefinitionIdentifier businessArea="demo" messageFunctionality="001" flavour="001" version="01"/>
</messageDefinition>
</topLevelCatalogueEntry></businessProcessCatalogue>
</iso20022:Repository>
FOOT
