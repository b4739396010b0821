"""The season's page: one HTML file of what the import tool says of a stick."""
