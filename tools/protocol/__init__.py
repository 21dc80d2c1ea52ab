"""The protocol of docs/PROTOCOL.md and the parts of docs/LANGUAGE.md that it needs, written in Python from these pages:
a second reader of the rules, which the program is compared with."""
