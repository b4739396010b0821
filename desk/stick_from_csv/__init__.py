"""stick-from-csv: a meter's log and a site file become a stick. docs/DESK.md says how both are written."""
