# shellcheck shell=bash
# What crates.txt says, for scripts that stand at the repository's root.

# Prints the names that stand in crates.txt, one a line.
crate_names() { sed -nE 's/#.*//; s/^[[:space:]]*([A-Za-z0-9_]+)([[:space:]]+staticlib)?[[:space:]]*:.*/\1/p' crates.txt; }

# Prints what a crate is built on, libraries of the kit too.
built_on() { # NAME
  sed -nE "s/#.*//; s/^[[:space:]]*$1([[:space:]]+staticlib)?[[:space:]]*:(.*)/\2/p" crates.txt
}
