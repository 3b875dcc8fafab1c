"""The commands at the top of the repository, a module for each. `deferreds.commands` runs them."""
