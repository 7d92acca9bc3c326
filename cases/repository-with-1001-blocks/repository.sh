# a repository of some 100 KB with 1,001 blocks and three messages
cat <<'HEAD'
<iso20022:Repository xmlns:iso20022="urn:iso:std:iso:20022:2013:ecore" xmlns:xmi="http://www.omg.org/XMI" xmlns:xsi="http://www.w3.org/2001/XMLSchema-instance">
<dataDictionary>
<topLevelDictionaryEntry xsi:type="iso20022:Text" xmi:id="_t" name="Max35Text" minLength="1" maxLength="35"/>
</dataDictionary>
<businessProcessCatalogue><topLevelCatalogueEntry>
HEAD
for flavour in 002 001 003; do
    echo '<messageDefinition name="NoteV'$flavour'" xmlTag="Note">'
    [ $flavour = 001 ] && seq 1001 | sed 's/.*/<messageBuildingBlock name="Block&" xmlTag="B&" minOccurs="1" maxOccurs="1" simpleType="_t"\/>/'
    echo '<messageDefinitionIdentifier businessArea="demo" messageFunctionality="001" flavour="'$flavour'" version="01"/>'
    echo '</messageDefinition>'
done
cat <<'FOOT'
</topLevelCatalogueEntry></businessProcessCatalogue>
</iso20022:Repository>
FOOT
