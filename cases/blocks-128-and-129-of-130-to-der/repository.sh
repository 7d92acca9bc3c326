# the 130 blocks E1 to E130, each of which may be left out
cat <<'HEAD'
<iso20022:Repository xmlns:iso20022="urn:iso:std:iso:20022:2013:ecore" xmlns:xmi="http://www.omg.org/XMI" xmlns:xsi="http://www.w3.org/2001/XMLSchema-instance">
<dataDictionary>
<topLevelDictionaryEntry xsi:type="iso20022:Text" xmi:id="_t" name="Max35Text" minLength="1" maxLength="35"/>
</dataDictionary>
<businessProcessCatalogue><topLevelCatalogueEntry>
<messageDefinition name="NoteV01" xmlTag="Note">
HEAD
seq 130 | sed 's/.*/<messageBuildingBlock name="E&" xmlTag="E&" minOccurs="0" maxOccurs="1" simpleType="_t"\/>/'
cat <<'FOOT'
<messageDefinitionIdentifier businessArea="demo" messageFunctionality="001" flavour="001" version="01"/>
</messageDefinition>
</topLevelCatalogueEntry></businessProcessCatalogue>
</iso20022:Repository>
FOOT
