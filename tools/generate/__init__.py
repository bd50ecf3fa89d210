"""The parts of tools/make_tables.py: the tables of tools/tables/, and for each language what is written of them."""
