"""What the programs of this folder share: how a program ends, the program `safl`, other tools and libraries, and files."""
