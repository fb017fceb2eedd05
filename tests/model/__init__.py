"""The register as plain lists, written from docs/RULES.md and the standards, and from no code of the program."""
