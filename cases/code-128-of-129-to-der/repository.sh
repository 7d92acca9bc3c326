# a set of the 129 codes C000 to C128
cat <<'HEAD'
<iso20022:Repository xmlns:iso20022="urn:iso:std:iso:20022:2013:ecore" xmlns:xmi="http://www.omg.org/XMI" xmlns:xsi="http://www.w3.org/2001/XMLSchema-instance">
<dataDictionary>
<topLevelDictionaryEntry xsi:type="iso20022:Text" xmi:id="_t" name="Max35Text" minLength="1" maxLength="35"/>
<topLevelDictionaryEntry xsi:type="iso20022:CodeSet" xmi:id="_k" name="ManyCode">
HEAD
seq 1000 1128 | sed 's/1\(.*\)/<code name="C\1" codeName="C\1"\/>/'
cat <<'FOOT'
</topLevelDictionaryEntry>
</dataDictionary>
<businessProcessCatalogue><topLevelCatalogueEntry>
<messageDefinition name="NoteV01" xmlTag="Note">
<messageBuildingBlock name="Identification" xmlTag="Id" minOccurs="1" maxOccurs="1" simpleType="_k"/>
<messageDefinitionIdentifier businessArea="demo" messageFunctionality="001" flavour="001" version="01"/>
</messageDefinition>
</topLevelCatalogueEntry></businessProcessCatalogue>
</iso20022:Repository>
FOOT
