../isorepo import tools/import-transfer/transfer.xsd
