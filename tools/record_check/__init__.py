"""Records of docs/RECORDS.md, read and checked apart from the program: what their lines say, the whole module language
of docs/LANGUAGE.md, and the core of tools/protocol, which is told the events again."""
